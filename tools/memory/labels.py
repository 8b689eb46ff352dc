"""Labels for places in the memory of an x86-64 Linux machine: a symbol, a per-CPU variable, a task's stack, a slab, a page.

It reads the kernel's own tables in the dump: page tables, the list of tasks, struct page. The fields' offsets come from
the BTF that the kernel carries. The place of this BTF shows the kernel's place in physical memory, and the kernel's
page tables show how far KASLR moved it. So symbols of a boot with `nokaslr` are valid for any boot of that kernel. A
label is for the reader: no finding depends on one. If a table cannot be read, there are fewer labels.
"""

import bisect
import re
import struct

IMAGE, IMAGES = 0xFFFFFFFF80000000, 1 << 30  # the kernel's image is above the first, within the second
ALIGNED = 1 << 21  # of an image, in physical and virtual memory
PAGE, STACK = 4096, 16384
FRAME = 0x000FFFFFFFFFF000
PRESENT, LARGE = 1, 0x80
FEWEST_LEVELS, MOST_CPUS, MOST_TASKS = (39, 30, 21, 12), 512, 1 << 16
GIVEN_BACK = (("_etext", "__start_rodata"), ("__end_rodata", "_sdata"), ("__init_begin", "__init_end"))  # parts of the image
USED = "page in use"
BTF_MAGIC = 0xEB9F
INT, ARRAY, STRUCT, UNION, ENUM, FUNCTION, VARIABLE, SECTION, TAG, ENUM64 = 1, 3, 4, 5, 6, 13, 14, 15, 17, 19
AFTER = {INT: 4, ARRAY: 12, VARIABLE: 4, TAG: 4}  # bytes after a type's head
EACH = {STRUCT: 12, UNION: 12, ENUM: 8, FUNCTION: 8, SECTION: 12, ENUM64: 12}  # and for each of its members
PAGES = {0xF0: "free page", 0xF1: "offline page", 0xF2: "page table", 0xF3: "guard page", 0xF4: "huge page", 0xF5: "slab"}


class Unknown(Exception):
    """A table of the kernel is not at its place."""


class Types:
    """Offsets of fields, by the kernel's BTF."""

    def __init__(self, data):
        magic, _, _, head, types, types_size, strings, strings_size = struct.unpack_from("<HBBIIIII", data)
        if magic != BTF_MAGIC:
            raise Unknown("BTF")
        self.strings = data[head + strings:head + strings + strings_size]
        self.types, self.named = [None], {}
        at, end = head + types, head + types + types_size
        while at < end:
            name, info, size = struct.unpack_from("<III", data, at)
            kind, count, members = info >> 24 & 31, info & 0xFFFF, []
            at += 12
            if kind in (STRUCT, UNION):
                for number in range(count):
                    its_name, its_type, offset = struct.unpack_from("<III", data, at + 12 * number)
                    members.append((its_name, its_type, (offset & 0xFFFFFF if info >> 31 else offset) // 8))
                if members:
                    self.named.setdefault(self.text(name), len(self.types))
            at += AFTER.get(kind, 0) + EACH.get(kind, 0) * count
            self.types.append((kind, size, members))

    def text(self, at):
        return self.strings[at:self.strings.index(b"\0", at)].decode()

    def offset(self, name, field):
        found = self.find(self.named[name], field) if name in self.named else None
        if found is None:
            raise Unknown(f"{name}.{field}")
        return found

    def find(self, number, field):
        for its_name, its_type, offset in self.types[number][2]:
            if its_name and self.text(its_name) == field:
                return offset
            if not its_name and self.types[its_type][0] in (STRUCT, UNION):
                inner = self.find(its_type, field)
                if inner is not None:
                    return offset + inner
        return None

    def size(self, name):
        return self.types[self.named[name]][1]


class Kernel:
    """The tables of the kernel in a dump."""

    def __init__(self, memory, symbols):
        self.memory, self.address = memory, {}
        self.image, self.per_cpu = [], []
        for value, name in symbols:
            self.address.setdefault(name, value)
            if value >= IMAGE:
                self.image.append((value, name))
            elif value < 1 << 20:
                self.per_cpu.append((value, name))
        self.image.sort()
        self.per_cpu.sort()
        self.find_image()
        self.direct = self.number(self.in_image("page_offset_base"))
        self.pages = self.number(self.in_image("vmemmap_base"))
        is_deep = "__pgtable_l5_enabled" in self.address and self.number(self.in_image("__pgtable_l5_enabled"), 4)
        self.levels = (48, *FEWEST_LEVELS) if is_deep else FEWEST_LEVELS
        self.find_slide()
        self.find_cpus()
        self.find_stacks()

    def find_image(self):
        """The image's place in physical memory, by the only place of its BTF."""
        start, end = self.address["__start_BTF"], self.address["__stop_BTF"]
        magic, at = struct.pack("<HBB", BTF_MAGIC, 1, 0), self.memory.bytes.find(struct.pack("<HBB", BTF_MAGIC, 1, 0))
        while at >= 0:
            self.shift = start - at
            if self.shift % ALIGNED == 0:
                self.types = Types(self.memory.read(at, end - start))
                return
            at = self.memory.bytes.find(magic, at + 1)
        raise Unknown("BTF")

    def find_slide(self):
        """How far the image is mapped from the symbols' addresses: 0, or as far as KASLR moved it."""
        text = self.address["_text"]
        for virtual in range(IMAGE + text % ALIGNED, IMAGE + IMAGES, ALIGNED):
            if self.mapped(virtual) == text - self.shift:
                self.slide = virtual - text
                return
        raise Unknown("the kernel's text in its page tables")

    def in_image(self, name):
        if name not in self.address:
            raise Unknown(name)
        return self.address[name] - self.shift

    def number(self, at, size=8):
        data = self.memory.read(at, size)
        if at < 0 or len(data) < size:
            raise Unknown(f"{at:#x}")
        return int.from_bytes(data, "little")

    def physical(self, at):
        """The physical address of a virtual address of the kernel, or None if nothing is mapped there."""
        if self.address["_text"] <= at - self.slide < self.address["_end"]:
            return at - self.slide - self.shift
        if self.direct <= at < self.direct + self.memory.size:
            return at - self.direct
        return self.mapped(at)

    def mapped(self, at):
        """The same, by the page tables alone."""
        table = self.in_image("init_top_pgt")
        for shift in self.levels:
            entry = self.number(table + 8 * (at >> shift & 511))
            if not entry & PRESENT:
                return None
            if shift == 12 or (shift < 39 and entry & LARGE):
                return (entry & FRAME & -(1 << shift)) + (at & (1 << shift) - 1)
            table = entry & FRAME
        return None

    def at(self, virtual):
        found = self.physical(virtual)
        if found is None:
            raise Unknown(f"{virtual:#x}")
        return found

    # CPUs and tasks

    def find_cpus(self):
        """The places of each CPU's variables, and the tasks that run."""
        count = min(self.number(self.in_image("nr_cpu_ids"), 4), MOST_CPUS)
        first = self.in_image("__per_cpu_offset")
        offsets = [self.number(first + 8 * cpu) for cpu in range(count)]
        self.areas = [area for area in map(self.physical, offsets) if area is not None]
        name = "pcpu_hot" if "pcpu_hot" in self.address else "current_task"
        self.running = {self.number(area + self.address[name]) for area in self.areas} if name in self.address else set()

    def find_stacks(self):
        """For each page of a task's stack, its task, and how far into the stack the page is."""
        offset = self.types.offset
        tasks, stack, comm, pid = (offset("task_struct", it) for it in ("tasks", "stack", "comm", "pid"))
        node, signal, head = offset("task_struct", "thread_node"), offset("task_struct", "signal"), offset("signal_struct", "thread_head")
        pointer = offset("task_struct", "thread") + offset("thread_struct", "sp")
        self.stacks = {}

        def add(task):
            start = self.at(task)
            base = self.number(start + stack)
            name = self.memory.read(start + comm, 16).split(b"\0")[0].decode(errors="replace")
            about = (f"{self.number(start + pid, 4)} {name}", base, self.number(start + pointer), task in self.running)
            for page in range(0, STACK, PAGE):
                place = self.physical(base + page)
                if place is not None:
                    self.stacks[place // PAGE] = (about, page)
            return start

        first = task = self.address["init_task"] + self.slide
        for _ in range(MOST_TASKS):
            start = add(task)
            threads = self.number(start + signal) + head
            thread = self.number(self.at(threads))
            while thread != threads:
                add(thread - node)
                thread = self.number(self.at(thread))
            task = self.number(start + tasks) - tasks
            if task == first:
                return
        raise Unknown("the list of tasks")

    # The label of a place

    def page(self, at):
        offset = self.types.offset
        place = self.physical(self.pages + at // PAGE * self.types.size("page"))
        if place is None:
            return "no page of the kernel"
        head = self.number(place + offset("page", "compound_head"))
        first = self.at(head - 1) if head & 1 else place
        kind = self.number(first + offset("page", "page_type"), 4) >> 24
        if PAGES.get(kind) == "slab":
            cache = self.at(self.number(first + offset("slab", "slab_cache")))
            name = self.at(self.number(cache + offset("kmem_cache", "name")))
            return "slab " + self.memory.read(name, 64).split(b"\0")[0].decode(errors="replace")
        if kind in PAGES:
            return PAGES[kind]
        if not self.number(first + offset("page", "_refcount"), 4):
            return "free page"
        mapping = self.number(first + offset("page", "mapping"))
        return "user page" if mapping & 1 else "page of a file" if mapping else USED

    def is_given_back(self, at):
        """Once it is up, the kernel frees the pages between the parts of its image, and those that only its start
        needs."""
        bounds = [(self.address.get(first), self.address.get(last)) for first, last in GIVEN_BACK]
        return any(first is not None and last is not None and first <= at < last for first, last in bounds)

    def label(self, at):
        if self.address["_text"] <= at + self.shift < self.address["_end"]:
            given = self.page(at) if self.is_given_back(at + self.shift) else USED
            return "image " + nearest(self.image, at + self.shift) if given == USED else given
        for cpu, area in enumerate(self.areas):
            if self.per_cpu and area <= at < area + self.per_cpu[-1][0] + PAGE:
                return f"CPU {cpu}'s {nearest(self.per_cpu, at - area)}"
        if at // PAGE in self.stacks:
            (name, base, pointer, is_running), page = self.stacks[at // PAGE]
            below = STACK - page - at % PAGE
            part = "running" if is_running else "dead part" if base + page + at % PAGE < pointer else "live part"
            return f"stack of {name}, {below:#x} below its top ({part})"
        return self.page(at)


def nearest(named, at):
    place = bisect.bisect_right(named, (at, "\x7f")) - 1
    return f"{named[place][1]}+{at - named[place][0]:#x}" if place >= 0 else hex(at)


def symbols_of(path):
    found = []
    with open(path, errors="replace") as lines:
        for line in lines:
            fields = line.split()
            if len(fields) == 3 and re.fullmatch("[0-9a-f]{16}", fields[0]):
                found.append((int(fields[0], 16), fields[2]))
    return found


def reader(memory, symbols):
    """A function that returns the label of a place. Without symbols or tables the label is only an address."""
    kernel, why = None, ""
    if symbols:
        found = symbols_of(symbols)
        try:
            kernel = Kernel(memory, found)
        except (Unknown, KeyError, struct.error, ValueError) as fault:
            why = f" (no labels: {fault} was not found)"

    def label(at):
        if kernel is None:
            return f"{at:#x}{why}"
        try:
            return f"{at:#x}, {kernel.label(at)}"
        except (Unknown, KeyError, struct.error):
            return f"{at:#x}"

    return label
