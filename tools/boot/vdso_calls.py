"""Makes events from the calls of vgetrandom that vdso_places.py noted. A part of convert.py.

A call through the vDSO becomes one `vread`. Its system calls, for a key or for all its bytes, are found by their stack
and by the instruction that made them. If another part of the program acts inside a call, this is an act of the call, or an
event of its own if the locks were taken in an order that an act cannot show. A state is known by its memory, and is a
new state if it is found full of zeros. So a child of fork has states of its own.

If a call's first attempt did not hold, and acts cannot show this, the call is shown by its second attempt alone: the
block counter goes on from one attempt to the next, so the call's bytes are the last ones of a longer read on a wiped
state. The record has the counter. The same holds for a call that goes on in a child, after a fork inside it.

Calls that cannot be shown are counted, by reason, in `notes`. Values play no part.
"""

from kernel_calls import Answer, Event, Reader

SIZE, PAGE, VDSO = 144, 4096, 8192  # bytes of a state, of a page, and of the vDSO's code at most
BATCH, BLOCK, KEY, KEY_AT = 96, 64, 32, 96
BATCH_BLOCKS = 2  # of a batch and the key after it
STATES = 16  # of a script's caller
ACTS = 8  # of one call
LONGEST = 1 << 20  # bytes of one read of a script
FRAME = 512  # a system call's stack pointer is at most this far below that of its call
EAGAIN, EINVAL = -11, -22
NONBLOCK, RANDOM, INSECURE = 1, 2, 4
READY = -1  # a look at any generation of a ready core
COPY = "not shown: a child's copy of the answer that its parent got"
# The point of an act, by how far the call is: entered, looked, asks for a key, has one, copies; and 6: its attempt
# holds. There are no acts at 5 (a second attempt, or before it) and at 7 (after an attempt that does not hold).
POINTS = {0: 1, 1: 1, 2: 2, 3: 3, 4: 4, 6: 4}


class Attempt:
    """One of the call's attempts, of which there are at most two."""

    def __init__(self, stop=None):
        self.looked = None if stop is None else stop["published"] - 1  # None: it began in the parent of its process
        self.needs_key = stop is not None and stop["generation"] != stop["published"]
        self.key = None  # the event of the read of its key
        self.blocks = {}  # by the block counter, how many blocks were made from there
        self.found = None  # the generation that its last look found
        self.holds = False
        self.wiped = None  # the point at which the state was wiped

    def before(self):
        """The blocks that the attempts before this one made."""
        return min(self.blocks, default=0)


class UserCall(Event):
    """A call of vgetrandom. It becomes an event once all of it was seen."""

    def __init__(self, stop, address, is_child, now):
        super().__init__("vread")
        self.stop, self.address, self.is_child = stop, address, is_child
        self.begun = now  # the place in the record at which it begins, or begins with its state
        self.is_shown = False
        self.point = 0
        self.attempts = []
        self.asked = None  # the stop at which a system call for all its bytes began
        self.system = None  # and its event
        self.inside = []  # events inside the first attempt, as pairs of a point and a call or a reseed
        self.later = []  # events inside the second attempt
        self.is_inside = False  # whether it was made inside another call on the same state, which was marked as in use
        self.is_mixed = False  # whether a call inside it took its state, or it took the state of the call that it is inside
        self.result = None
        self.memory = None

    def note_inside(self, event):
        if self.point in (5, 7):
            self.later.append(event)
        else:
            self.inside.append((POINTS[self.point], event))

    def blocks_of(self, is_wiped):
        """The blocks that its first attempt makes, from the state's batch, or from that of a wiped state."""
        left = BATCH if is_wiped else 0 if self.attempts[0].needs_key else BATCH - self.stop.get("pos", 0)
        rest = max(self.stop["count"] - left, 0)
        return rest // BLOCK + BATCH_BLOCKS if rest else 0


class UserReader(Reader):
    """Goes through the stops of a record, and makes events from the kernel's steps and from the calls in user
    memory."""

    def __init__(self, is_cut=False):
        super().__init__()
        self.is_cut = is_cut  # whether a state that takes a new key counts as another state
        self.notes = {}
        self.calls = []  # all, in the order of their beginnings
        self.open = {}  # by memory and stack pointer
        self.ended = set()
        self.eras = {}  # for each memory, how many programs ran in it
        self.vdsos = set()
        self.memories = {}  # for each state's place, the number of its content, or None if that is not known
        self.count = 0  # of such numbers
        self.lanes = []  # the events that took the base or a CPU, in the order of the record
        self.places = {}  # for each of them, its places in that list

    def note(self, text):
        self.notes[text] = self.notes.get(text, 0) + 1

    # Calls in user memory

    def at_vdso(self, stop):
        self.vdsos.add(stop["at"])
        self.eras[stop["mm"]] = self.eras.get(stop["mm"], 0) + 1
        for key in [key for key in self.open if key[0] == stop["mm"]]:
            del self.open[key]

    def address(self, stop):
        return stop["mm"], self.eras.get(stop["mm"], 0), stop["state"]

    def begin(self, stop, is_child=False):
        call = UserCall(stop, self.address(stop), is_child, self.now)
        self.calls.append(call)
        self.open[stop["mm"], stop["pointer"]] = call
        self.ended.discard((stop["mm"], stop["pointer"]))
        self.order.take(f"call {len(self.calls)}", call)  # its place, if it takes no lock
        return call

    def at_venter(self, stop):
        key = stop["mm"], stop["pointer"]
        old = self.open.pop(key, None)
        if old is not None and not old.attempts and old.stop["count"] == stop["count"] and old.stop["state"] == stop["state"]:
            self.open[key] = old  # seen twice
            return
        if stop["size"] != SIZE or stop["state"] % PAGE + SIZE > PAGE:
            asks = stop["size"] == 2**64 - 1 and not stop["count"]
            self.note("asked for the size of a state" if asks else "no state: its system call is shown as a read")
            self.ended.add(key)
            return
        enclosing = [it for it in self.open.values() if it.address == self.address(stop)]
        thread = stop["who"][2]
        is_first = not any(it.stop.get("who", (0, 0, None))[2] == thread for it in self.open.values())
        call = self.begin(stop)
        if is_first:
            self.order.take(f"thread {thread}", call)
        if enclosing and stop.get("mark"):
            call.is_inside = True
            enclosing[-1].note_inside(call)
        elif enclosing and 1 <= enclosing[-1].point <= 5:  # else the other one has not begun with the state, or is through with it
            call.is_mixed = enclosing[-1].is_mixed = True

    def call_of(self, stop):
        """The call that a stop belongs to. If it is not known, it began in the parent of its process."""
        key = stop["mm"], stop["pointer"]
        if key in self.open:
            return self.open[key]
        call = self.begin(stop, is_child=True)
        if stop["stop"] != "vlook":
            call.attempts.append(Attempt())
        return call

    def at_vlook(self, stop):
        call = self.call_of(stop)
        if call.attempts and call.attempts[-1].found is None and call.attempts[-1].looked is not None:
            if not call.attempts[-1].needs_key and not stop["generation"]:
                call.attempts[-1].wiped, call.attempts[-1].needs_key = 1, True
            return  # seen twice
        if not call.attempts:
            call.begun = self.now
            self.order.take(f"state {call.address}", call)
        call.attempts.append(Attempt(stop))
        call.point = 5 if stop["second"] or len(call.attempts) > 1 else 1

    def advance(self, stop, point, wiped):
        """The call, and its attempt. If the state now has generation 0, it was wiped, at this point or at an earlier
        one."""
        call = self.call_of(stop)
        attempt = call.attempts[-1]
        if call.point < 5:
            if not stop["generation"] and attempt.wiped is None and not call.is_child:
                attempt.wiped = wiped
            call.point = max(call.point, point)
        return call, attempt

    def at_vkey(self, stop):
        _, attempt = self.advance(stop, 2, 2)
        if not attempt.needs_key:
            attempt.wiped, attempt.needs_key = 1, True

    def at_vnew(self, stop):
        self.advance(stop, 3, 2)

    def at_vserve(self, stop):
        self.advance(stop, 3, 3)

    def at_vblocks(self, stop):
        _, attempt = self.advance(stop, 4, 4)
        attempt.blocks[stop["counter"]] = stop["blocks"]

    def at_vend(self, stop):
        call, attempt = self.advance(stop, 4, 4)
        attempt.found, attempt.holds = stop["published"] - 1, stop["generation"] == stop["published"]
        call.point = 6 if attempt.holds else 7 if stop["second"] else 5

    def at_vleave(self, stop):
        key = stop["mm"], stop["pointer"]
        call = self.open.pop(key, None)
        if call is None:
            if key not in self.ended:
                self.note(COPY)
            return
        self.ended.add(key)
        call.result = stop["result"]
        call.answer = Answer(stop["value"], stop.get("who"), function="vgetrandom")
        call.answer.digest = stop.get("digest")
        if call.system is not None and 0 < call.result < call.stop["count"]:  # a signal cut the system call short
            call.system.word = f"read {call.result} {call.stop['flags']}"
            call.system.answer.value = (call.system.answer.value or "")[: 2 * call.result]
        if call.is_child:
            call.stop = dict(call.stop, count=stop["result"], flags=stop["flags"], wiped=True)

    # The kernel's part

    def user_call(self, stop):
        """The open call that a system call was made in."""
        if "sp" not in stop or not any(vdso <= stop["ip"] < vdso + VDSO for vdso in self.vdsos):
            return None
        found = [(pointer - stop["sp"], pointer) for mm, pointer in self.open if mm == stop["mm"] and 0 <= pointer - stop["sp"] < FRAME]
        return self.open[stop["mm"], min(found)[1]] if found else None

    def at_enter(self, stop):
        super().at_enter(stop)
        if stop["call"] == "getrandom":
            call = self.user_call(stop)
            if call is not None and not self.is_for_key(call, stop):
                call.asked = stop

    def is_for_key(self, call, stop):
        return stop["wanted"] == KEY and stop["buffer"] == call.address[2] + KEY_AT

    def event_of(self, stop, calls):
        event = super().event_of(stop, calls)
        if stop["call"] == "uread":
            self.own(event, calls[-1].stop)
        return event

    def at_answer(self, stop):
        source = self.stacks.get(stop["stack"], [None])[-1]
        super().at_answer(stop)
        if source is not None and source.name == "getrandom":
            self.own(self.events[-1], source.stop)

    def own(self, event, source):
        """A user's read is a part of the call that made it, or has its place in the order of its thread."""
        call = self.user_call(source) if "ip" in source else None
        if call is None:
            if "who" in source and not any(it.stop.get("who", (0, 0, None))[2] == source["who"][2] for it in self.open.values()):
                event.thread = f"thread {source['who'][2]}"
        elif self.is_for_key(call, source):
            call.attempts[-1].key = event
        else:
            call.system = event

    def at_leave(self, stop):
        super().at_leave(stop)
        if stop["call"] == "uread":
            for call in self.open.values():
                if call.point == 2 and call.attempts[-1].key is not None and call.attempts[-1].key.is_over:
                    call.point = 3

    def at_install(self, stop):
        super().at_install(stop)
        event = self.stacks[stop["stack"]][-1].event
        for call in self.open.values():
            if 1 <= call.point <= 5:
                call.note_inside(event)

    # How the calls become events

    def show_calls(self):
        """Makes an event of each call that a script can show."""
        self.lanes = [event for lock, event in self.order.taken if lock == "base" or lock.startswith("cpu")]
        for place, event in enumerate(self.lanes):
            self.places.setdefault(event, []).append(place)
        for call in sorted(self.calls, key=lambda it: it.begun):
            self.show_call(call)

    def fresh(self, address):
        self.count += 1
        self.memories[address] = self.count
        return self.count

    def show_call(self, call):
        if call.is_mixed:
            self.leave_out(call, "not shown: one inside another on a state that had been wiped")
        elif call.result is None:
            self.leave_out(call, "not shown: its end was not seen")
        elif not call.attempts:
            self.show_without_attempt(call)
        elif call.stop["flags"] & (RANDOM | INSECURE) == RANDOM | INSECURE:
            self.leave_out(call, "not shown: flags that are chosen otherwise")
        elif not call.attempts[-1].holds:
            is_copy = call.is_child and call.attempts[-1].found is None
            self.leave_out(call, COPY if is_copy else "shown as the reads that it made: no attempt held")
        else:
            self.show_attempts(call)

    def leave_out(self, call, why):
        self.note(why)
        self.memories[call.address] = None

    def show_without_attempt(self, call):
        """Nothing was served from the state, and it is as it was."""
        call.memory = self.memories.get(call.address)
        flags, count = call.stop["flags"], call.stop["count"]
        call.word = f"vread {count} {flags}"
        if call.part_of is not None:
            return
        if call.is_inside:
            self.note("inside another one, shown as a read")
        elif call.result == EINVAL:
            call.is_shown = True
        elif call.asked is None and not count:
            call.is_shown = True
            self.order.looks.append((call, READY))
        elif call.system is not None and ("draw" in call.system.steps or call.result == EAGAIN):
            call.is_shown, call.system.part_of = True, call
            call.hardware = call.system.hardware
            self.order.looks.append((call, 0))
        else:
            is_early = call.asked is not None and call.asked.get("early")
            self.note("shown as the read that it made" + (": the core was not ready when it began" if is_early else ""))

    def show_attempts(self, call):
        first = call.attempts[0]
        if not call.is_child:
            if first.needs_key and (call.stop["wiped"] or self.is_cut):
                self.fresh(call.address)
            if self.memories.get(call.address) is None:
                if not first.needs_key:
                    self.leave_out(call, "not shown: the content of its state is not known")
                    return
                self.fresh(call.address)
        why = self.why_not_whole(call)
        if not why:
            self.show_as(call, call.attempts, 0)
        elif not call.attempts[-1].needs_key or call.attempts[-1].looked is None:
            self.leave_out(call, "not shown: its second attempt went on with a state that another call had renewed")
        elif call.stop["count"] + BLOCK * call.attempts[-1].before() > LONGEST:
            self.leave_out(call, "not shown: a longer read would be too long")
        else:
            self.note(f"shown as the end of a longer read: {why}")
            self.fresh(call.address)
            call.acts, call.hardware = [], None
            self.show_as(call, call.attempts[-1:], BLOCK * call.attempts[-1].before())

    def show_as(self, call, attempts, before):
        call.is_shown, call.memory = True, self.memories[call.address]
        call.word = f"vread {call.stop['count'] + before} {call.stop['flags']}"
        call.answer.before = before
        for attempt in attempts:
            self.order.looks += [(call, attempt.looked), (call, attempt.found)]
            if attempt.key is not None:
                attempt.key.part_of = call
                call.cpu = attempt.key.cpu
        self.note(f"shown with {len(attempts)} attempt{'s' * (len(attempts) > 1)}" if not before else "shown as the end of a longer read")

    def why_not_whole(self, call):
        """The reason why the call is not shown with all its attempts, or None; then the call has its acts."""
        attempts, first = call.attempts, call.attempts[0]
        keys = [it.key for it in attempts if it.key is not None]
        reseeds = [it for it in call.inside if not isinstance(it[1], UserCall)] if len(attempts) > 1 else []
        if call.is_child:
            return "it goes on in a child"
        if len({it.cpu for it in keys}) > 1:
            return "its keys are of two CPUs"
        if len(attempts) > 1:
            if any(not isinstance(it, UserCall) for it in call.later) or len(reseeds) > 1:
                return "several reseeds, or one elsewhere"
            if len(reseeds) + (first.wiped is not None) != 1:
                return "its first attempt failed for another reason"
            if reseeds and (reseeds[0][1].word != "reseed" or reseeds[0][1].part_of is not None):
                return "the reseed is another event's"
            if first.wiped == 4 and attempts[1].before() == call.blocks_of(True) != call.blocks_of(False):
                first.wiped = 3  # before it copied from the batch
            if attempts[1].before() != call.blocks_of(first.wiped == 3):
                return "it was wiped between two points"
        elif first.wiped not in (None, 1):
            return "it was wiped and holds"
        if not self.is_alone([*keys, *[it for _, it in reseeds]]):
            return "another event's steps are between its own"
        self.add_acts(call, keys, reseeds)
        return None

    def add_acts(self, call, keys, reseeds):
        own, acts = [*keys, *[it for _, it in reseeds]], []
        if call.attempts[0].wiped is not None:
            acts.append((call.attempts[0].wiped, "wipe", None))
        for point, it in call.inside:
            if (point, it) in reseeds:
                it.part_of, call.hardware = call, it.hardware
                acts.append((point, "reseed", None))
            elif isinstance(it, UserCall) and it.system is not None and it.stop["flags"] == 0 and len(acts) + len(reseeds) < ACTS:
                if self.is_alone([*own, it.system]):
                    own.append(it.system)
                    it.part_of = it.system.part_of = call
                    acts.append((point, f"vread {it.stop['count']}", it.answer))
        call.acts = sorted(acts, key=lambda it: it[0])
        for point, word, _ in acts:
            self.note(f"shown inside: {word.split(' ')[0]} at point {point}")

    def is_alone(self, own):
        """Whether no other event has a step of the base or a CPU between the first and the last of these steps."""
        places = sorted(place for event in own for place in self.places.get(event, []))
        return not places or all(self.lanes[place] in own for place in range(places[0], places[-1] + 1))

    def forget(self, call):
        """Drops the call: its reads of keys become events of their own."""
        call.is_shown = False
        for attempt in call.attempts:
            if attempt.key is not None and attempt.key.part_of is call:
                attempt.key.part_of = None
        for _, it in call.inside:
            if it.part_of is call:
                it.part_of = None
                if isinstance(it, UserCall):
                    it.system.part_of = None
        self.order.looks = [it for it in self.order.looks if it[0] is not call]


def number_states(events):
    """Gives each state one of the numbers of a script's caller, from its first use to its last; returns those without
    one."""
    last = {event.memory: place for place, event in enumerate(events) if isinstance(event, UserCall)}
    numbers, used, current, without = {}, set(), 0, set()
    for place, event in enumerate(events):
        if not isinstance(event, UserCall) or event.memory is None or event.memory in without:
            continue
        event.setting, is_new = [], event.memory not in numbers
        if is_new:
            numbers = {it: number for it, number in numbers.items() if last[it] >= place}
            free = sorted(set(range(STATES)) - set(numbers.values()), key=lambda it: (it in used, it != current, it))
            if not free:
                without.add(event.memory)
                continue
            numbers[event.memory] = free[0]
        number = numbers[event.memory]
        event.setting = [f"state {number}"] * (number != current) + ["drop"] * (is_new and number in used)
        used.add(number)
        current = number
    return without, bool(used - {0})
