"""What a trace is answered, by the rules of docs/TRACE.md alone: a plain account beside the proved program.

`replies(trace)` gives the bytes that `gpu_trace` has to write for a trace without a bad line, and how many questions the device was asked.
A block is a list of extents; gaps are what lies between them, and each search looks at all of them. Nothing here is meant to be fast.
"""
MB = 1 << 20
MAX = (1 << 64) - 1
# Vulkan's flags of a memory type, by location: all that it prefers, and what it must have
PREFERRED = {"Unknown": 0, "GpuOnly": 1, "CpuToGpu": 7, "GpuToCpu": 14}
REQUIRED = {"Unknown": 0, "GpuOnly": 1, "CpuToGpu": 6, "GpuToCpu": 6}
HOST_VISIBLE = 2
KINDS = {"linear": "Linear", "nonlinear": "NonLinear"}


class Refused(Exception):
    """Why a request is refused: the word of the reply."""


def is_power_of_two(number):
    return number > 0 and number & (number - 1) == 0


def up_to(number, step):
    return -(-number // step) * step


def block_size_near(size):
    return up_to(min(max(size, 4 * MB), 256 * MB), 4 * MB)


class Sizes:
    """Of one side, device or host: where block sizes begin and up to where they double."""

    def __init__(self, smallest, largest):
        self.smallest = block_size_near(smallest)
        self.largest = max(block_size_near(largest), self.smallest)

    def next(self, count):
        return min(self.smallest << min(count, 7), self.largest)


class Extent:
    """A live piece with its padding: [start, end), the piece begins at offset."""

    def __init__(self, start, offset, end, kind, number, name):
        self.start, self.offset, self.end, self.kind, self.number, self.name = start, offset, end, kind, number, name


class Block:
    """A block that pieces share: its extents by start, and the numbers of its gaps by their starts."""

    def __init__(self, size, page):
        self.size, self.page, self.counter, self.extents, self.gap_numbers = size, page, 2, [], {0: 1}
        self.bytes = {}

    def gaps(self):
        """Of each gap its start and end, and the extents beside it."""
        beside = [None, *self.extents, None]
        for left, right in zip(beside, beside[1:]):
            start, end = left.end if left else 0, right.start if right else self.size
            if start < end:
                yield start, end, left, right

    def place_in(self, gap, size, alignment, kind):
        """The least offset at which a piece fits in the gap, or None. Pieces of different kinds share no page."""
        start, end, left, right = gap
        offset = up_to(start, alignment)
        if left and left.kind != kind and offset // self.page == (start - 1) // self.page:
            offset = up_to(((start - 1) // self.page + 1) * self.page, alignment)
        last = offset + size - 1
        shares = right and right.kind != kind and last // self.page == end // self.page
        return None if last >= end or shares else offset

    def take(self, size, alignment, kind, name):
        """A piece in the shortest gap in which it fits, of equal ones the lowest; None where there is none."""
        for gap in sorted(self.gaps(), key=lambda it: (it[1] - it[0], it[0])):
            offset = self.place_in(gap, size, alignment, kind)
            if offset is not None:
                return self.taken(gap, offset, offset + size, kind, name)
        return None

    def taken(self, gap, offset, end, kind, name):
        number = self.gap_numbers.pop(gap[0])
        if end < gap[1]:
            self.gap_numbers[end], number, self.counter = number, self.counter, self.counter + 1
        extent = Extent(gap[0], offset, end, kind, number, name)
        self.extents = sorted([*self.extents, extent], key=lambda it: it.start)
        return extent

    def free(self, extent):
        """Its place joins the gaps on both sides; the number stays that of the gap on the left, and else is the extent's."""
        left = next((start for start, end, _, _ in self.gaps() if end == extent.start), None)
        self.extents.remove(extent)
        self.gap_numbers.pop(extent.end, None)
        if left is None:
            self.gap_numbers[extent.start] = extent.number

    def rows(self):
        return [b"piece %s %d %d\n" % (it.name, it.offset, it.end - it.offset) for it in self.extents]

    def allocated(self):
        return sum(it.end - it.start for it in self.extents)


class Dedicated(Block):
    """A block that is one piece's own: the piece has the number 1, and nothing else has a place."""

    def take(self, size, alignment, kind, name):
        self.extents = [Extent(0, 0, size, kind, 1, name)]
        return self.extents[0]

    def free(self, extent):
        self.extents = []


class MemoryType:
    """A memory type: its flags, heap, budget and slots, each None or a block."""

    def __init__(self, index, flags, heap):
        self.index, self.flags, self.heap, self.budget, self.slots = index, flags, heap, None, []

    def blocks(self):
        return [it for it in self.slots if it]

    def shared(self):
        return [it for it in self.blocks() if not isinstance(it, Dedicated)]

    def capacity(self):
        return sum(it.size for it in self.blocks())

    def put(self, block):
        """A dedicated block goes into the lowest empty slot, a shared one into the highest."""
        empty = [at for at, it in enumerate(self.slots) if not it]
        if not empty:
            self.slots.append(block)
            return len(self.slots) - 1
        at = empty[0] if isinstance(block, Dedicated) else empty[-1]
        self.slots[at] = block
        return at


class Allocation:
    """What a caller's number stands for: a piece and where it lies; a null one has no block."""

    def __init__(self, of_type=None, slot=None, extent=None):
        self.of_type, self.slot, self.extent = of_type, slot, extent

    def block(self):
        return self.of_type.slots[self.slot] if self.of_type else None


class Allocator:
    """Memory types and what the caller's numbers stand for, over a device that refuses the questions of its script."""

    def __init__(self):
        self.types, self.page, self.refuses, self.questions, self.bound = [], 1, {}, 0, {}
        self.device, self.host = Sizes(256 * MB, 256 * MB), Sizes(64 * MB, 64 * MB)

    def configure(self, words):
        if words[0] == "sizes":
            device, host, most_of_device, most_of_host = map(int, words[1:])
            self.device, self.host = Sizes(device, most_of_device), Sizes(host, most_of_host)
        elif words[0] == "refuse":
            self.refuses.setdefault(int(words[1]), None if words[2] == "null" else int(words[2]))
        else:
            return False
        return True

    def refusal(self):
        """The next question, and whether it is refused."""
        self.questions += 1
        return self.questions in self.refuses, self.refuses.get(self.questions)

    def in_type(self, of_type, size, alignment, kind, is_own, name):
        """A piece of the memory type: of the highest shared block that has a place, or of a new block."""
        shared_size = (self.host if of_type.flags & HOST_VISIBLE else self.device).next(len(of_type.shared()))
        if is_own or size > shared_size:
            return self.in_new_block(of_type, Dedicated(size, self.page), size, alignment, kind, name)
        for slot in range(len(of_type.slots) - 1, -1, -1):
            block = of_type.slots[slot]
            extent = block.take(size, alignment, kind, name) if block and not isinstance(block, Dedicated) else None
            if extent:
                return Allocation(of_type, slot, extent)
        return self.in_new_block(of_type, Block(shared_size, self.page), size, alignment, kind, name)

    def in_new_block(self, of_type, block, size, alignment, kind, name):
        if self.sum_of_blocks() + block.size > MAX:
            raise Refused("E1")
        if of_type.budget is not None and of_type.capacity() + block.size > of_type.budget:
            raise Refused("E11")
        block.handle = self.ask(of_type, block.size)
        extent = block.take(size, alignment, kind, name)
        return Allocation(of_type, of_type.put(block), extent)

    def in_block_ahead(self, key, to, size, alignment, kind, name):
        """Binds a second place of the key's allocation, by its request again, in the highest block above its own that has a place."""
        if key not in self.bound:
            raise Refused("unbound")
        if to in self.bound:
            raise Refused("busy")
        got = self.bound[key]
        if size == 0 or not is_power_of_two(alignment) or not got.extent or size != got.extent.end - got.extent.offset:
            raise Refused("error E4")
        for slot in range(len(got.of_type.slots) - 1, got.slot, -1):
            block = got.of_type.slots[slot]
            extent = block.take(size, alignment, kind, name.encode()) if block and not isinstance(block, Dedicated) else None
            if extent:
                self.bound[to] = Allocation(got.of_type, slot, extent)
                return self.bound[to]
        raise Refused("none")

    def give_back(self, got):
        """The piece goes, and its block with it where that is left empty and isn't the only shared one of its memory type."""
        block, several = got.block(), len(got.of_type.shared()) > 1
        block.free(got.extent)
        if not block.extents and (isinstance(block, Dedicated) or several):
            got.of_type.slots[got.slot] = None
            self.free_memory(block.handle)

    def free_memory(self, handle):
        """The driver's object behind a block goes back."""

    def sum_of_blocks(self):
        return sum(it.capacity() for it in self.types)

    def every_block(self):
        return [(of_type, slot, it) for of_type in self.types for slot, it in enumerate(of_type.slots) if it]

    # ---- the commands

    def free(self, key):
        got = self.bound.pop(key, None)
        if not got:
            return "unbound"
        if got.block():
            self.give_back(got)
        return "ok"

    def report(self):
        rows, blocks = [], []
        for _, _, block in self.every_block():
            first = len(rows)
            rows += block.rows()
            blocks.append(b"block %d %d %d\n" % (block.size, first, len(rows)))
        total = sum(it.allocated() for _, _, it in self.every_block())
        return (b"".join(rows + blocks) + b"total %d capacity %d" % (total, self.sum_of_blocks())).decode()

    def rename(self, key, name):
        got = self.bound.get(key)
        if not got:
            return "unbound"
        if got.extent:
            got.extent.name = name.encode()
        return "ok"

    def leaks(self):
        told = [leak_text(of_type.index, slot, block, it) for of_type, slot, block in self.every_block() for it in block.extents]
        return "".join(f"{it}\n" for it in told) + f"leaks {len(told)}"

    def capacity(self):
        return str(self.sum_of_blocks())

    def budget(self, index, size):
        if int(index) >= len(self.types):
            return "error E6"
        self.types[int(index)].budget = None if size == "none" else int(size)
        return "ok"


class Device(Allocator):
    """The Vulkan allocator."""

    def __init__(self):
        super().__init__()
        self.heaps = []

    def configure(self, words):
        if words[0] == "heap":
            self.heaps.append(int(words[1]))
        elif words[0] == "type":
            self.types.append(MemoryType(len(self.types), int(words[1]), int(words[2])))
        elif words[0] == "granularity":
            self.page = int(words[1])
        else:
            return super().configure(words)
        return True

    def new(self):
        wrong = not is_power_of_two(self.page) or len(self.types) > 32 or any(it.heap >= len(self.heaps) for it in self.types)
        return "error E5" if wrong else "ok"

    def ask(self, of_type, size):
        """Memory for a block, mapped where the host can see it."""
        is_refused, code = self.refusal()
        if is_refused:
            raise Refused("E1" if code in (None, -2) else "E6")
        if of_type.flags & HOST_VISIBLE and self.refusal()[0]:
            raise Refused("E2")

    def first_type(self, bits, flags):
        return next((it for it in self.types if bits >> it.index & 1 and it.flags & flags == flags), None)

    def allocate(self, size, alignment, bits, location, kind, scheme, name):
        if size == 0 or not is_power_of_two(alignment):
            raise Refused("E4")
        second = self.first_type(bits, REQUIRED[location])
        of_type = self.first_type(bits, PREFERRED[location]) or second
        if not of_type:
            raise Refused("E3")
        try:
            return self.attempt(of_type, size, alignment, kind, scheme, name)
        except Refused:
            if location != "CpuToGpu" or not second:
                raise
            return self.attempt(second, size, alignment, kind, scheme, name)

    def attempt(self, of_type, size, alignment, kind, scheme, name):
        if size > self.heaps[of_type.heap]:
            raise Refused("E1")
        return self.in_type(of_type, size, alignment, kind, scheme != "managed", name)

    # ---- the commands

    def alloc(self, key, size, alignment, bits, location, kind, scheme, name):
        if key in self.bound:
            return "busy"
        try:
            got = self.allocate(int(size), int(alignment), int(bits), location, KINDS[kind], scheme, name.encode())
        except Refused as why:
            return f"error {why}"
        self.bound[key] = got
        return self.told(got, size, scheme)

    def move(self, key, to, size, alignment, _bits, _location, kind, scheme, name):
        try:
            if scheme != "managed" and key in self.bound and to not in self.bound:
                raise Refused("error E4")
            got = self.in_block_ahead(key, to, int(size), int(alignment), KINDS[kind], name)
        except Refused as why:
            return str(why)
        return self.told(got, size, scheme)

    def told(self, got, size, scheme):
        flags = str(scheme != "managed").lower(), str(bool(got.of_type.flags & HOST_VISIBLE)).lower()
        place = f"type {got.of_type.index} slot {got.slot} offset {got.extent.offset} size {size} chunk {got.extent.number}"
        return f"ok {place} dedicated {flags[0]} mapped {flags[1]}"

    def null(self, key):
        if key in self.bound:
            return "busy"
        self.bound[key] = Allocation()
        return "ok"

    def place(self, key, at, length):
        """The block's bytes and the first of them that are meant, or the reply where there are none."""
        got = self.bound.get(key)
        if not got:
            return "unbound", 0
        if not got.block() or not got.of_type.flags & HOST_VISIBLE:
            return "none", 0
        if at + length > got.extent.end - got.extent.offset:
            return "range", 0
        return got.block().bytes, got.extent.offset + at

    def write(self, key, at, digits):
        data = bytes.fromhex(digits)
        held, first = self.place(key, int(at), len(data))
        if isinstance(held, str):
            return held
        held.update({first + i: it for i, it in enumerate(data)})
        return "ok"

    def read(self, key, at, length):
        held, first = self.place(key, int(at), int(length))
        return held if isinstance(held, str) else bytes(held.get(first + i, 0) for i in range(int(length))).hex()

    def destroy(self):
        return "held 0"


def leak_text(memory_type, slot, block, extent):
    size, name = f"0x{extent.end - extent.start:x}", extent.name.decode()
    if isinstance(block, Dedicated):
        piece = f"    dedicated allocation: {{\n        size: {size},\n        name: {name}\n    }}\n"
    else:
        piece = (f"    chunk: {{\n        chunk_id: {extent.number},\n        size: {size},\n        offset: 0x{extent.start:x},\n"
                 f"        allocation_type: {extent.kind},\n        name: {name}\n    }}\n")
    return f"leak detected: {{\n    memory type: {memory_type}\n    memory block: {slot}\n{piece}}}"


LOCATIONS = ["GpuOnly", "CpuToGpu", "GpuToCpu"]


def whole_units(size, unit):
    """The size that a device tells: whole units, at least one, and at most as many as 64 bits hold."""
    return min(max(-(-size // unit), 1), MAX // unit) * unit


class Numbered(Allocator):
    """An allocator over a device that numbers all that it grants in one row."""

    def __init__(self):
        super().__init__()
        self.issued, self.held, self.latest_heap = 0, 0, "none"

    def number(self):
        """The number that the device grants."""
        self.issued, self.held = self.issued + 1, self.held + 1
        return self.issued

    def free_memory(self, handle):
        self.held -= 1

    def allocate(self, of_type, size, alignment, name):
        if size == 0 or not is_power_of_two(alignment):
            raise Refused("E4")
        return self.in_type(of_type, size, alignment, "Linear", False, name.encode())

    def bind(self, key, of_type, size, alignment, name):
        """Binds a piece under a number that is free, and replies where it lies."""
        if key in self.bound:
            return "busy"
        try:
            got = self.allocate(of_type, size, alignment, name)
        except Refused as why:
            return f"error {why}"
        self.bound[key] = got
        return self.place_told(got, size)

    def moved(self, key, to, size, alignment, name):
        """The same of a second place."""
        try:
            got = self.in_block_ahead(key, to, size, alignment, "Linear", name)
        except Refused as why:
            return str(why)
        return self.place_told(got, size)

    def place_told(self, got, size):
        return f"ok {place_of(got)} size {size} chunk {got.extent.number} heap {got.block().handle}"


def place_of(got):
    return f"type {got.of_type.index} slot {got.slot} offset {got.extent.offset}"


class Metal(Numbered):
    """The Metal allocator."""

    HEAPS = ["private defaultcache", "shared writecombined", "shared defaultcache"]
    ALIGNMENT = 256

    def __init__(self):
        super().__init__()
        self.sets, self.residency, self.set = "yes", "no", None
        self.types = [MemoryType(at, HOST_VISIBLE if at > 0 else 0, None) for at in range(3)]

    def configure(self, words):
        if words[0] in ("sets", "residency"):
            setattr(self, words[0], words[1])
            return True
        return super().configure(words)

    def question(self, is_able):
        if self.refusal()[0] or not is_able:
            raise Refused("E6")
        return self.number()

    def new(self):
        if self.residency == "no":
            return "ok"
        try:
            self.question(self.sets == "yes")
        except Refused as why:
            return f"error {why}"
        self.set = [], []
        return "ok"

    def ask(self, of_type, size):
        self.latest_heap = f"{size} {self.HEAPS[of_type.index]}"
        number = self.question(True)
        if self.set:
            self.set[0].append(number)
        return number

    def free_memory(self, handle):
        super().free_memory(handle)
        if self.set:
            self.set[0].remove(handle)

    # ---- the commands

    def type_for(self, location):
        return self.types[LOCATIONS.index(location) if location in LOCATIONS else 0]

    def alloc(self, key, size, alignment, location, name):
        return self.bind(key, self.type_for(location), int(size), int(alignment), name)

    def move(self, key, to, size, alignment, _location, name):
        return self.moved(key, to, int(size), int(alignment), name)

    def told(self, key, location, size, name):
        """A piece of the size that the device tells."""
        return self.bind(key, self.type_for(location), whole_units(size, self.ALIGNMENT), self.ALIGNMENT, name)

    def buffer(self, key, length, location, name):
        return self.told(key, location, int(length), name)

    structure = buffer

    def texture(self, key, mode, width, height, texel, name):
        if key not in self.bound and mode.startswith("other:"):
            return "error E6"
        size = min(int(width) * int(height) * int(texel), MAX)
        return self.told(key, "GpuOnly" if mode == "private" else "Unknown", size, name)

    def heaps(self):
        handles = [block.handle for _, _, block in self.every_block()]
        return "".join(f"heap {it}\n" for it in handles) + f"heaps {len(handles)}"

    def listed(self, word, at):
        return " ".join([word, str(len(self.set[at])), *map(str, self.set[at])]) if self.set else "none"

    def members(self):
        return self.listed("members", 0)

    def committed(self):
        return self.listed("committed", 1)

    def commit(self):
        if self.set:
            self.set = self.set[0], list(self.set[0])
        return "ok"

    def asked(self):
        return f"asked {self.questions} heap {self.latest_heap}"

    def destroy(self):
        return f"held {self.held - len(self.every_block())} members 0"


class D3D12(Numbered):
    """The DirectX 12 allocator. Of each memory type there is its location and its category, None for any; its committed resources
    are pairs of number and size. What a resource's number stands for is its memory type, number, size and piece, if it has one."""

    HEAPS = {"GpuOnly": "default unknown unknown", "CpuToGpu": "custom writecombine l0", "GpuToCpu": "custom writeback l0"}
    CONTENTS = {None: "all", "buffer": "buffers", "target": "rtdstextures", "texture": "nonrtdstextures"}
    HEAP_ALIGNMENT, ALIGNMENT, OUT_OF_MEMORY = 4 * MB, 65536, -2147024882

    def __init__(self):
        super().__init__()
        self.tier, self.interface, self.resources, self.latest = ["2"], "device12", {}, ("none", "none", "none")
        self.kinds, self.committed_of = [], []

    def configure(self, words):
        if words[0] == "tier":
            self.tier = words[1:]
        elif words[0] == "version":
            self.interface = words[1]
        else:
            return super().configure(words)
        return True

    def new(self):
        if self.tier[0] == "refused":
            return "error E6"
        categories = ["buffer", "target", "texture"] if self.tier == ["1"] else [None]
        self.kinds = [(location, category) for location in LOCATIONS for category in categories]
        self.types = [MemoryType(at, 0 if location == "GpuOnly" else HOST_VISIBLE, None) for at, (location, _) in enumerate(self.kinds)]
        self.committed_of = [[] for _ in self.kinds]
        return "ok"

    def type_for(self, location, category):
        serves = [location in ("Unknown", its) and may in (None, category) for its, may in self.kinds]
        return self.types[serves.index(True)]

    def ask(self, of_type, size):
        location, category = self.kinds[of_type.index]
        self.latest_heap = f"{size} {self.HEAPS[location]} {self.HEAP_ALIGNMENT} {self.CONTENTS[category]}"
        is_refused, code = self.refusal()
        if is_refused:
            raise Refused("E1" if code == self.OUT_OF_MEMORY else "E6")
        return self.number()

    def ask_resource(self, latest):
        self.latest = latest
        if self.refusal()[0]:
            raise Refused("E6")
        return self.number()

    def handed_on(self, initial, formats):
        """How many formats the question for a resource hands on, or why it isn't asked."""
        is_state, has_formats = initial.startswith("state:"), formats != "none"
        if is_state and has_formats:
            raise Refused("E8")
        if has_formats and self.interface != "device12":
            raise Refused("E9")
        if not is_state and self.interface == "device":
            raise Refused("E7")
        if is_state or self.interface == "device10":
            return "none"
        return str(len(formats.split(",")) if has_formats else 0)

    def make_committed(self, of_type, size, name, latest):
        records = self.committed_of[of_type.index]
        if sum(it for _, it in records) + size > MAX:
            raise Refused("E1")
        number = self.ask_resource(latest)
        records.append((number, size))
        return (of_type, number, size, None), f"ok resource {number} size {size}"

    def make_placed(self, of_type, size, name, latest):
        got = self.allocate(of_type, size, self.ALIGNMENT, name)
        try:
            number = self.ask_resource(latest)
        except Refused:
            self.give_back(got)
            raise
        return (of_type, number, size, got), f"ok resource {number} size {size} {place_of(got)} chunk {got.extent.number}"

    # ---- the commands

    def alloc(self, key, size, alignment, location, category, name):
        return self.bind(key, self.type_for(location, category), int(size), int(alignment), name)

    def move(self, key, to, size, alignment, _location, _category, name):
        return self.moved(key, to, int(size), int(alignment), name)

    def create(self, key, place, location, category, _dimension, width, _height, _depth, _flags, initial, formats, clear, name):
        if key in self.resources:
            return "busy"
        make = self.make_placed if place == "placed" else self.make_committed
        try:
            latest = self.handed_on(initial, formats), clear, initial
            made = make(self.type_for(location, category), whole_units(int(width), self.ALIGNMENT), name, latest)
        except Refused as why:
            return f"error {why}"
        self.resources[key], reply = made
        return reply

    def release(self, key):
        if key not in self.resources:
            return "unbound"
        of_type, number, size, got = self.resources.pop(key)
        self.held -= 1
        if got:
            self.give_back(got)
        else:
            self.committed_of[of_type.index].remove((number, size))
        return "ok"

    def committed(self, index):
        if int(index) >= len(self.kinds):
            return "none"
        records = self.committed_of[int(index)]
        return f"committed {len(records)} {sum(it for _, it in records)}"

    def asked(self):
        formats, clear, initial = self.latest
        return f"asked {self.questions} heap {self.latest_heap} formats {formats} clear {clear} initial {initial}"

    def destroy(self):
        return f"held {self.held - len(self.every_block())}"


class BlockTrace:
    """One block, with no device."""

    def __init__(self, words):
        _, _, smallest, largest, count, page = words
        self.block = Block(Sizes(int(smallest), int(largest)).next(int(count)), int(page))
        self.bound = {}

    def take(self, key, size, alignment, kind, name):
        if key in self.bound:
            return "busy"
        if int(size) == 0 or not is_power_of_two(int(alignment)):
            return "error E4"
        extent = self.block.take(int(size), int(alignment), KINDS[kind], name.encode())
        if not extent:
            return "error E1"
        self.bound[key] = extent
        return f"ok offset {extent.offset} chunk {extent.number}"

    def give(self, key):
        extent = self.bound.pop(key, None)
        if not extent:
            return "unbound"
        self.block.free(extent)
        return "ok"

    def report(self):
        return (b"".join(self.block.rows()) + b"total %d capacity %d" % (self.block.allocated(), self.block.size)).decode()


class Planned:
    """A resource of a plan, alive from its first pass to its last."""

    def __init__(self, key, size, alignment, kind, first, last, name):
        self.key, self.kind, self.name = key, KINDS[kind], name
        self.size, self.alignment, self.first, self.last = int(size), int(alignment), int(first), int(last)

    def is_invalid(self):
        return self.size == 0 or not is_power_of_two(self.alignment) or self.first > self.last

    def is_alive(self, at):
        return self.first <= at <= self.last

    def meets(self, offset, other, place, page):
        """Whether at the offset it would share a byte with another at its place, or a page where their kinds differ."""
        unit = page if self.kind != other.kind else 1
        last, other_last = (offset + self.size - 1) // unit, (place + other.size - 1) // unit
        return offset // unit <= other_last and place // unit <= last


class PlanTrace:
    """Resources that share one heap, by docs/RINGS_AND_PLANS.md."""

    # what goes first in each order, by what is least
    ORDERS = {
        "size": lambda plan, it: [-it.size],
        "area": lambda plan, it: [-it.size * (it.last - it.first + 1)],
        "alignment": lambda plan, it: [-it.alignment, -it.size],
        "magnitude": lambda plan, it: [-it.size.bit_length(), it.first - it.last, -it.size],
        "breadth": lambda plan, it: [*plan.busiest(it), -it.size],
    }

    def __init__(self, page):
        self.page, self.resources = int(page), []

    def bytes_alive(self, at):
        return sum(it.size for it in self.resources if it.is_alive(at))

    def busiest(self, resource):
        """Of a life's passes the first with the most bytes alive, behind those bytes, negated. Only where a life begins there are more."""
        starts = [it.first for it in self.resources if resource.is_alive(it.first)]
        return min((-self.bytes_alive(at), at) for at in starts)

    def least_offset(self, resource, placed):
        """The least free offset is 0, or the first behind another resource or behind the page on which that one ends."""
        beside = [(it, at) for it, at in placed if it.first <= resource.last and resource.first <= it.last]
        ends = [0, *(at + it.size for it, at in beside), *(up_to(at + it.size, self.page) for it, at in beside)]
        tried = sorted(up_to(end, resource.alignment) for end in ends)
        return next(o for o in tried if not any(resource.meets(o, it, at, self.page) for it, at in beside))

    def in_order(self, order):
        """The heap of an order, and each resource's offset."""
        placed = []
        for it in sorted(self.resources, key=lambda it: self.ORDERS[order](self, it)):
            placed.append((it, self.least_offset(it, placed)))
        return max((at + it.size for it, at in placed), default=0), dict(placed)

    # ---- the commands

    def resource(self, key, *words):
        if any(it.key == key for it in self.resources):
            return "busy"
        one = Planned(key, *words)
        if one.is_invalid():
            return "error E4"
        self.resources.append(one)
        return "ok"

    def solve(self):
        plans = {order: self.in_order(order) for order in self.ORDERS}
        order = min(plans, key=lambda it: plans[it][0])
        heap, offsets = plans[order]
        if heap > MAX:
            return "error E1"
        rows = []
        for it in self.resources:
            reused = [other.key for other in self.resources if other.last < it.first and it.meets(offsets[it], other, offsets[other], 1)]
            rows.append(" ".join(["place", it.name, str(offsets[it]), str(it.size), "reuses", str(len(reused)), *reused]))
        peak = max((self.bytes_alive(it.first) for it in self.resources), default=0)
        return "\n".join([*rows, f"heap {heap} peak {peak} order {order}"])


# by the line that begins a trace of the sort
SORTS = {"metal": Metal, "d3d12": D3D12}


def served(trace):
    """Of each command of a trace without a bad line the number of its line, its reply, and the machine that served it."""
    lines = [(number, it.split(" ")) for number, it in enumerate(trace.decode().split("\n"), 1) if it and not it.startswith("#")]
    if lines and lines[0][1][0] == "block":
        number, words = lines.pop(0)
        machine = BlockTrace(words)
        yield number, f"block {machine.block.size}", machine
    elif lines and lines[0][1][0] == "plan":
        number, words = lines.pop(0)
        machine = PlanTrace(words[1])
        yield number, "ok", machine
    else:
        sort = SORTS.get(" ".join(lines[0][1])) if lines else None
        machine, lines = (sort or Device)(), lines[sort is not None:]
        while lines and machine.configure(lines[0][1]):
            lines = lines[1:]
    for number, (verb, *words) in lines:
        yield number, getattr(machine, verb)(*words), machine


def replies(trace):
    """The replies to a trace without a bad line, as bytes, and how many questions the device was asked."""
    written, questions = [], 0
    for _, reply, machine in served(trace):
        written.append(reply)
        questions = getattr(machine, "questions", 0)
    return "".join(f"{it}\n" for it in written).encode(), questions
