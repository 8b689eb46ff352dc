"""Makes events from the steps of a kernel's random core that recorder.py noted. A part of convert.py.

Each call of the kernel becomes one event, and the record shows each lock that it took, and when. Two events that took the same
lock are ordered as they took it. A read that used a generation comes after the reseed that made this generation, and
before the reseed that made the next. convert.py looks for an order in which all of this holds, and refuses a record
that has none. The values play no part in it.
"""

import heapq

EARLY, FULL = 128, 256  # bits at which the core gets an early key, and becomes ready
FRAME = 512  # a call's stack pointer is at most this far below its value at the call's return
SOURCES = {"getrandom": "read {count} {flags}", "random_file": "dread {count} 0", "urandom_file": "uread {count}"}
READS = {("draw",), ("extract", "draw"), ("serve",), ("refill", "serve")}
INTEGERS = {("draw",), ("extract", "draw"), ("take",), ("serve", "take"), ("refill", "serve", "take")}
BATCH = 96  # bytes of a batch of integers


class Refused(Exception):
    """The record leaves no place for something that is in it."""


class Call:
    """A call that has begun on some kernel stack and has not returned."""

    def __init__(self, name, pointer, stop, event):
        self.name, self.pointer, self.stop, self.event = name, pointer, stop, event

    def is_source(self):
        """Whether it only shows the source of a user's read."""
        return self.name in SOURCES

    def ends_at(self, pointer):
        return 0 <= pointer - self.pointer < FRAME


class Event:
    """An event of the script, with its steps that were seen, and the value that it handed out."""

    def __init__(self, word, stop=None):
        self.word, self.stop = word, stop
        self.place = None  # its place among all events, by their first steps
        self.first = None  # the place of its first step in the record
        self.steps = []
        self.cpu = None  # the CPU on which a read or an integer was served
        self.hardware = None  # the words that its extraction got
        self.generation = None  # the generation that it used
        self.crossed = None  # the steps that a credit may take
        self.is_over = False
        self.is_shown = True  # whether the script has it
        self.part_of = None  # the event that includes it
        self.setting = []  # lines that prepare it
        self.acts = []  # the acts within it, as triples of a point, a word and an answer
        self.answer = Answer()
        self.thread = None  # the thread whose call it is, if that thread has no other open call

    def whole(self):
        return self if self.part_of is None else self.part_of.whole()

    def lines(self, on):
        """The lines of the event for a caller that is on a CPU."""
        moves = self.cpu is not None and self.cpu != on
        acts = [f"inside {point} {word}" for point, word, _ in self.acts]
        return [f"on {self.cpu}"] * moves + self.setting + [f"hw {self.hardware}"] * bool(self.hardware) + acts + [self.word]

    def answers(self):
        """The values that were handed out, with the number of lines from each to the event's last one."""
        inner = [(len(self.acts) - it, answer) for it, (_, _, answer) in enumerate(self.acts) if answer is not None]
        return [*inner, (0, self.answer)]


class Answer:
    """The value that a call handed out, and its caller."""

    def __init__(self, value=None, who=None, since=None, function=None):
        self.value = value  # the first bytes in hexadecimal, or None
        self.before = 0  # bytes of the event's answer that come before those of the call
        self.digest = None  # the SHA-256 of all bytes, if only the first are kept
        self.who = who  # moment, process, thread, kind of context, and the task's name
        self.since = since  # the moment at which a call began that may have waited
        self.function = function  # the kernel's function that made the call


class Order:
    """The order of events: for each, the others that have to come after it.

    It is noted while the record is read, and worked out after that: only then is it known which calls make up one event
    together.
    """

    def __init__(self):
        self.taken = []  # pairs of a lock and the event that took it, in the order of the record
        self.makers = [None]  # of each generation, the event that made it; nothing made generation 0
        self.looks = []  # pairs of an event and a generation that it used

    def take(self, lock, event):
        """The event holds the lock, after the event that held it before."""
        self.taken.append((lock, event))

    def make(self, generation, event):
        if generation != len(self.makers):
            raise Refused(f"a reseed made generation {generation} after {len(self.makers) - 1}")
        self.makers.append(event)

    def go_by(self, generation, event):
        """An event has one generation, from its first look at it to its end."""
        if event.generation is None:
            event.generation = generation
            self.looks.append((event, generation))
        elif event.generation != generation:
            raise Refused(f"{event.word} found the generations {event.generation} and {generation}")

    def events(self):
        """The events of the script, in the order of their first steps; each gets its place among them."""
        found = []
        for _, event in self.taken:
            event.place = None
        for _, event in self.taken:
            event = event.whole()
            if event.is_shown and event.place is None:
                event.place = len(found)
                found.append(event)
        return found

    def after(self):
        """For an event's place, the places of events that have to come after it."""
        found, holders = {}, {}

        def put(before, event):
            if before is not None and event is not None and before is not event:
                found.setdefault(before.place, set()).add(event.place)

        for lock, event in self.taken:
            event = event.whole()
            if event.is_shown:
                put(holders.get(lock), event)
                holders[lock] = event
        makers = [None if it is None else it.whole() for it in self.makers]
        for event, generation in self.looks:
            if generation < 0:  # any, but the core was ready
                for maker in makers[1:2]:
                    put(maker, event.whole())
                continue
            if generation >= len(makers):
                raise Refused(f"{event.word} found generation {generation}, which no reseed made")
            put(makers[generation], event.whole())
            for maker in makers[generation + 1 : generation + 2]:
                put(event.whole(), maker)
        return found

    def sort(self):
        events = self.events()
        return sort_by(events, self.after())


def sort_by(events, after):
    """The events, so that each comes before those after it; of several possible ones, the one of the lowest place is
    first."""
    waits = [0] * len(events)
    for places in after.values():
        for place in places:
            waits[place] += 1
    free = [place for place, count in enumerate(waits) if not count]
    found = []
    while free:
        place = heapq.heappop(free)
        found.append(events[place])
        for other in after.get(place, ()):
            waits[other] -= 1
            if not waits[other]:
                heapq.heappush(free, other)
    if len(found) < len(events):
        stuck = next(place for place, count in enumerate(waits) if count)
        raise Refused(f"no order agrees with the locks: {events[stuck].word} is in a cycle")
    return found


class Reader:
    """Goes through the stops of a record, and makes events from them."""

    def __init__(self):
        self.order = Order()
        self.events = []
        self.stacks = {}  # the open calls of each kernel stack, the innermost last
        self.bits = 0
        self.sample = None  # a device's sample, if only the cycle counter of it was mixed
        self.now = 0

    def read(self, stops):
        for self.now, stop in enumerate(stops):
            try:
                note = getattr(self, "at_" + stop["stop"], None)
                if note is None:
                    raise Refused(f"a stop of an unknown kind: {stop}")
                note(stop)
            except (LookupError, TypeError, ValueError, AttributeError) as fault:
                raise Refused(f"stop {self.now + 1} is not one that recorder.py writes ({fault!r}): {stop}") from fault

    def unfinished(self):
        """The place in the record of the first step of an event whose end was not seen, or None."""
        return min((event.first for event in self.events if not event.is_over), default=None)

    def add_step(self, event, stop, lock):
        if event.first is None:
            event.first = self.now
            self.events.append(event)
            if event.thread:
                self.order.take(event.thread, event)
        event.steps.append(stop["stop"])
        self.order.take(lock, event)
        return event

    def add_whole(self, event, stop, lock):
        """An event of one step."""
        event.is_over = True
        return self.add_step(event, stop, lock)

    def add_to_call(self, stop, lock):
        """A step of the innermost call on its stack."""
        calls = self.stacks.get(stop["stack"])
        if not calls or calls[-1].event is None:
            raise Refused(f"a step that belongs to no call that was seen: {stop}")
        return self.add_step(calls[-1].event, stop, lock)

    # Calls

    def at_enter(self, stop):
        calls = self.stacks.setdefault(stop["stack"], [])
        name, pointer = stop["call"], stop["pointer"]
        if name in SOURCES:
            while calls and calls[-1].is_source():
                calls.pop()
            calls.append(Call(name, pointer, stop, None))
        elif not (calls and (calls[-1].name, calls[-1].pointer) == (name, pointer)):
            # An interrupt may come at the very first instruction, which is then seen twice.
            calls.append(Call(name, pointer, stop, self.event_of(stop, calls)))

    def event_of(self, stop, calls):
        """The event that a call belongs to: that of the enclosing call, or a new one."""
        name, outer = stop["call"], calls[-1] if calls else None
        if name == "uread":
            if outer is None or not outer.is_source() or not 0 <= outer.pointer - stop["pointer"] < FRAME:
                raise Refused(f"a user's read out of nowhere: {stop}")
            event = Event(SOURCES[outer.name].format(count=stop["count"], flags=outer.stop.get("flags")))
            began = outer.stop.get("who")
            event.answer = Answer(who=began, since=began and outer.stop.get("early") and began[0], function=outer.name)
            return event
        if name == "kread" and stop["by"].startswith("get_random_u"):
            event = Event("int" + stop["by"][len("get_random_u") :])
            event.answer.function = stop.get("asked")
            if stop["count"] == BATCH:  # an integer is taken from it when it is filled
                calls.append(Call(event.word, stop["pointer"], stop, event))
            return event
        if name == "reseed" and stop["by"].startswith("_credit_init_bits") and outer and outer.name == "credit":
            return outer.event
        if name == "credit":
            return Event(f"credit {min(stop['bits'], FULL)}", stop)
        event = Event(f"kread {stop['count']}" if name == "kread" else name)
        event.answer.function = stop["by"]
        return event

    def at_leave(self, stop):
        calls = self.stacks.get(stop["stack"], [])
        while calls and calls[-1].is_source() and calls[-1].pointer < stop["pointer"]:
            calls.pop()
        if not calls or calls[-1].name != stop["call"] or not calls[-1].ends_at(stop["pointer"]):
            if any(it.name == stop["call"] and it.ends_at(stop["pointer"]) for it in calls):
                raise Refused(f"a call ended before one that it had made: {stop}")
            return  # seen twice, as a beginning may be
        event = calls.pop().event
        if not any(it.event is event for it in calls):
            event.is_over = True
            event.answer.value = stop["value"]
            event.answer.who = stop.get("who") or event.answer.who
            check(event)

    def at_answer(self, stop):
        """A user's call that found the core not ready, and did not wait: it has a look, and no step."""
        calls = self.stacks.get(stop["stack"], [])
        if not calls or not calls[-1].is_source() or calls[-1].pointer != stop["pointer"]:
            raise Refused(f"an answer that belongs to no call that was seen: {stop}")
        source = calls.pop()
        if source.name != "getrandom":
            return  # a file's flags are not in the record
        event = self.add_whole(Event(f"read {source.stop['wanted']} {source.stop['flags']}"), stop, "answers")
        event.answer = Answer(who=source.stop["who"], function=source.name)
        self.order.go_by(0, event)

    # Steps

    def at_mix(self, stop):
        if self.sample is not None:
            if stop["by"] != "add_device_randomness":
                raise Refused(f"bytes in the middle of a device's sample: {stop}")
            event, self.sample = self.sample, None
            event.word += " " + (stop["data"] or "-")
        elif stop["by"] == "add_device_randomness":
            counter = int.from_bytes(bytes.fromhex(stop["data"]), "little")
            self.sample = self.add_whole(Event(f"device {counter}"), stop, "pool")
        else:
            self.add_whole(Event("write " + (stop["data"] or "-")), stop, "pool")

    def at_extract(self, stop):
        if self.sample is not None:
            raise Refused("an extraction in the middle of a device's sample")
        self.add_to_call(stop, "pool").hardware = stop["hw"]

    def at_credit(self, stop):
        event = self.add_to_call(stop, "bits")
        if stop["was"] != self.bits:
            raise Refused(f"{self.bits} bits were credited before, and the kernel had {stop['was']}")
        self.bits = min(self.bits + event.stop["bits"], FULL)
        event.crossed = crossed(stop["was"], self.bits)

    def at_early(self, stop):
        self.add_to_call(stop, "base")

    at_draw = at_early

    def at_install(self, stop):
        self.order.make(stop["generation"], self.add_to_call(stop, "base"))

    def at_refill(self, stop):
        self.order.go_by(stop["generation"], self.add_to_call(stop, "base"))

    def at_take(self, stop):
        """An integer is taken from its batch, which an earlier call may have filled."""
        calls = self.stacks.setdefault(stop["stack"], [])
        is_filled = calls and calls[-1].name == stop["call"]
        event = calls.pop().event if is_filled else Event(stop["call"])
        self.serve(self.add_step(event, stop, f"cpu {stop['cpu']}"), stop)
        event.is_over = True
        event.answer = Answer(stop["value"], stop.get("who"), function=stop.get("by"))
        check(event)

    def at_serve(self, stop):
        self.serve(self.add_to_call(stop, f"cpu {stop['cpu']}"), stop)

    def serve(self, event, stop):
        if event.cpu not in (None, stop["cpu"]):
            raise Refused(f"{event.word} was served by two CPUs")
        event.cpu = stop["cpu"]
        self.order.go_by(stop["generation"], event)

    def at_prepare(self, stop):
        self.add_whole(Event(f"{stop['stop']} {stop['of']}"), stop, f"cpu {stop['of']}")

    at_online = at_prepare

    def at_dump(self, stop):
        """The machine's memory was kept here. This is no step of the core."""

    def at_error(self, stop):
        raise Refused(f"the recorder failed: {stop['why']}")


def crossed(before, after):
    """The steps that a credit may take."""
    if before < FULL <= after:
        return {("credit", "extract", "install")}
    if before < EARLY <= after:
        return {("credit", "early"), ("credit", "early", "extract")}
    return {("credit",)}


def check(event):
    """Whether a call that has returned took the steps that one event of a script has."""
    steps, kind = tuple(event.steps), event.word.split()[0]
    if kind == "credit":
        allowed = event.crossed if steps else {()}
    elif kind == "reseed":
        allowed = {("extract", "install")}
    elif kind.startswith("int"):
        allowed = INTEGERS
    else:
        allowed = READS | {()}  # a read of no bytes takes nothing
    if steps not in allowed:
        raise Refused(f"{event.word} took the steps {' '.join(steps) or 'none'}")


