"""Random traces of each sort, each from a seed: the same seed gives the same trace."""
import random

MB = 1 << 20
TYPES = [["6 0"], ["1 0", "6 1"], ["1 0", "6 1", "14 1"], ["1 0", "7 0", "6 1", "14 1"], ["0 0", "1 1", "2 0", "6 0", "7 1", "15 1"]]
LOCATIONS = ["Unknown", "GpuOnly", "CpuToGpu", "GpuToCpu"]


def size(rng, block):
    """Mostly a small part of a block; sometimes a block, its neighbours, or more than any."""
    some = [rng.randint(1, 300), rng.randint(1, block // 64), rng.randint(1, block // 4), rng.choice([block - 1, block, block + 1])]
    return rng.choice(some + some[:2]) if rng.random() < 0.97 else rng.choice([0, 600 * MB, (1 << 64) - 1])


def alignment(rng, granularity):
    return rng.choice([1, 1, 4, 16, 256, granularity, 65536]) if rng.random() < 0.97 else rng.choice([0, 3, 12])


def block_trace(seed, commands):
    rng = random.Random(seed)
    page = rng.choice([1, 1, 64, 1024, 4096])
    lines, live = [f"block {rng.choice(['device', 'host'])} {4 * MB} {rng.choice([4, 8, 64]) * MB} {rng.randint(0, 3)} {page}"], []
    for key in range(commands):
        kind = rng.choice(["linear", "nonlinear"])
        if rng.random() < 0.45 and live:
            lines.append(f"give {live.pop(rng.randrange(len(live)))}")
        elif rng.random() < 0.04:
            lines.append(rng.choice(["report", f"give {key}"]))
        else:
            lines.append(f"take {key} {size(rng, 4 * MB)} {alignment(rng, page)} {kind} piece-{key}")
            live.append(key)
    return "\n".join([*lines, "report", ""]).encode()


def plan_trace(seed, commands):
    """A fifth of the commands, since each `solve` is long. Half of the passes are few; sometimes no heap is large enough at the end."""
    rng = random.Random(seed)
    page, passes = rng.choice([1, 1, 64, 1024]), rng.choice([4, 30, 30, 1 << 64])
    lines, keys = [f"plan {page}"], [0]
    for key in range(commands // 5):
        first = rng.randrange(passes)
        last = min(first + rng.choice([0, 1, 3, passes]), passes - 1) if rng.random() < 0.97 else rng.randrange(passes)
        if rng.random() < 0.06:
            lines.append("solve")
        keys.append(key)
        asked = min(size(rng, 4 * MB), 600 * MB)
        lines.append(f"resource {key if rng.random() < 0.95 else rng.choice(keys)} {asked} {alignment(rng, page)} "
                     f"{rng.choice(['linear', 'nonlinear'])} {first} {last} resource-{key}")
    lines.append("solve")
    if rng.random() < 0.3:
        lines += [f"resource {key} {rng.choice([1 << 62, 1 << 63])} 1 linear 0 {rng.randrange(passes)} large" for key in range(1000, 1003)] + ["solve"]
    return "\n".join([*lines, ""]).encode()


class AllocatorTrace:
    """The configuration of an allocator and its device with refusals, and a list of commands. `live` is what may be given back."""

    # the first question that may be refused, by which codes, and the commands behind the random ones
    FIRST, CODES, LAST = 1, [], []

    def __init__(self, seed, commands):
        self.rng, self.live, self.sizes = random.Random(seed), [], {}
        self.lines = [*self.begin(), *self.sizes_line(), *self.refuse_lines(), *self.settings(), "new"]
        self.lines += [self.command(key) for key in range(commands)]
        self.lines += [*self.LAST, ""]

    def settings(self):
        return []

    def sizes_line(self):
        rng = self.rng
        return ["sizes " + " ".join(str(rng.choice([4, 8, 16]) * MB) for _ in range(4))] if rng.random() < 0.8 else []

    def refuse_lines(self):
        rng = self.rng
        if rng.random() >= 0.7:
            return []
        return [f"refuse {rng.randint(self.FIRST, 40)} {rng.choice(self.CODES)}" for _ in range(rng.randint(1, 6))]

    def command(self, key):
        chance = self.rng.random()
        if chance < 0.30 and self.live:
            return self.give_back(self.live.pop(self.rng.randrange(len(self.live))))
        if chance < 0.75 or not self.live:
            return self.request(key)
        return self.other(key, self.rng.choice(self.live))

    def give_back(self, old):
        return f"free {old}"


    def second_place(self, key, old):
        """A move of an allocation: its number, another, and mostly its own size and some alignment."""
        rng, to = self.rng, key + 2000000
        asked = self.sizes.get(old, 1) if rng.random() < 0.95 else size(rng, 4 * MB)
        if rng.random() < 0.1:
            old = rng.choice([key + 1000000, old])
            to = rng.choice([old, key])
        self.sizes[to] = asked
        return f"move {old} {to} {asked} {alignment(rng, 256)}", to


class DeviceTrace(AllocatorTrace):
    """With memory types and a page size."""

    CODES, LAST = ["-1", "-2", "-5", "7", "null"], ["report", "leaks", "capacity", "destroy"]

    def begin(self):
        rng = self.rng
        self.page, self.types = rng.choice([1, 1, 64, 1024]), rng.choice(TYPES)
        heaps = [f"heap {it * MB}" for it in (rng.choice([64, 512]), rng.choice([128, 1024]))]
        return heaps + [f"type {it}" for it in self.types] + [f"granularity {self.page}"]

    def request(self, key):
        rng, asked = self.rng, size(self.rng, 4 * MB)
        bits = rng.choice([(1 << len(self.types)) - 1] * 3 + [rng.randrange(1 << len(self.types))])
        scheme = "managed" if rng.random() < 0.85 else rng.choice(["buffer:7", "image:9"])
        self.live.append(key)
        self.sizes[key] = asked
        return (f"alloc {key} {asked} {alignment(rng, self.page)} {bits} {rng.choice(LOCATIONS)} {rng.choice(['linear', 'nonlinear'])} "
                f"{scheme} piece-{key}")

    def other(self, key, old):
        rng = self.rng
        if rng.random() < 0.3:
            words, to = self.second_place(key, old)
            self.live.append(to)
            kind, scheme = rng.choice(["linear", "nonlinear"]), "managed" if rng.random() < 0.95 else "buffer:1"
            return f"{words} {rng.randrange(8)} {rng.choice(LOCATIONS)} {kind} {scheme} moved-{key}"
        at, length = rng.choice([0, 0, rng.randint(0, self.sizes.get(old, 1) + 4)]), rng.choice([1, 4, 16, 64, 4096])
        index, kept = rng.randrange(len(self.types) + 1), rng.choice(["none", "0", str(rng.randint(1, 20) * 4 * MB)])
        return rng.choice([
            f"write {old} {at} {bytes(rng.randrange(256) for _ in range(length)).hex()}", f"read {old} {at} {length}",
            f"read {old} {at} {length}", f"rename {old} other-{key}", f"null {key + 1000000}", f"free {key + 1000000}",
            "report", "leaks", "capacity", f"budget {index} {kept}", f"alloc {old} 1 1 1 Unknown linear managed twice"])


def device_trace(seed, commands):
    return "\n".join(DeviceTrace(seed, commands).lines).encode()


class MetalTrace(AllocatorTrace):
    """With a residency set or without."""

    FIRST, CODES = 2, ["-1", "-2", "7", "null"]
    LAST = ["report", "heaps", "members", "committed", "asked", "capacity", "destroy"]

    def begin(self):
        return ["metal"]

    def settings(self):
        rng = self.rng
        return ["residency yes", *(["sets yes"] if rng.random() < 0.5 else [])] if rng.random() < 0.6 else []

    def request(self, key):
        rng, asked, location = self.rng, size(self.rng, 4 * MB), self.rng.choice(LOCATIONS)
        self.live.append(key)
        self.sizes[key] = asked
        mode = rng.choice(["shared", "managed", "private", "memoryless", "other:7"])
        sort = rng.randrange(4)
        if sort in (1, 2):
            self.sizes[key] = min(max(-(-asked // 256), 1), (1 << 56) - 1) * 256
        return [
            f"alloc {key} {asked} {alignment(rng, 1)} {location} piece-{key}", f"buffer {key} {asked} {location} buffer-{key}",
            f"structure {key} {asked} {location} structure-{key}",
            f"texture {key} {mode} {rng.choice([0, 1, 100, 2000, 1 << 40])} {rng.randint(0, 3000)} {rng.choice([1, 4, 16])} texture-{key}"][sort]

    def other(self, key, old):
        rng = self.rng
        if rng.random() < 0.3:
            words, to = self.second_place(key, old)
            self.live.append(to)
            return f"{words} {rng.choice(LOCATIONS)} moved-{key}"
        index, kept = rng.randrange(4), rng.choice(["none", "0", str(rng.randint(1, 20) * 4 * MB)])
        return rng.choice(["commit", "commit", "members", "committed", "heaps", "asked", "report", "capacity", f"budget {index} {kept}",
                           f"free {key + 1000000}", f"alloc {old} 1 1 Unknown twice", f"texture {old} other:1 1 1 1 twice"])


def metal_trace(seed, commands):
    return "\n".join(MetalTrace(seed, commands).lines).encode()


class D3D12Trace(AllocatorTrace):
    """With a heap tier and an interface. What may be given back is an allocation or a resource, by its verb and number."""

    CODES = ["-1", "-2147024882", "-2005270523", "7", "null"]
    LAST = ["report", "leaks", *(f"committed {at}" for at in range(4)), "asked", "capacity", "destroy"]

    def begin(self):
        return ["d3d12"]

    def settings(self):
        rng = self.rng
        tier = [f"tier {rng.choice([1, 1, 2])}"] if rng.random() < 0.7 else []
        return tier + ([f"version {rng.choice(['device', 'device10', 'device12'])}"] if rng.random() < 0.5 else [])

    def request(self, key):
        rng, location, category = self.rng, self.rng.choice(LOCATIONS), self.rng.choice(["buffer", "target", "texture"])
        if rng.random() < 0.5:
            self.live.append(("free", key))
            self.sizes[key] = size(rng, 4 * MB)
            return f"alloc {key} {self.sizes[key]} {alignment(rng, 65536)} {location} {category} piece-{key}"
        self.live.append(("release", key))
        return f"create {key} {rng.choice(['placed', 'committed'])} {location} {category} {self.description()} resource-{key}"

    def description(self):
        rng = self.rng
        dimension = rng.choice(["unknown", "buffer", "texture1d", "texture2d", "texture3d"])
        width = rng.choice([0, 1, 65536, rng.randint(1, 300000), size(rng, 4 * MB)])
        initial = rng.choice(["state", "layout", "layout"])
        formats = ",".join(str(rng.randrange(100)) for _ in range(rng.choice([0] * 6 + [1, 3, 16]))) or "none"
        clear = "none" if rng.random() < 0.7 else ":".join(str(rng.choice([0, 28, (1 << 32) - 1])) for _ in range(5))
        height, depth, flags = rng.choice([0, 1, (1 << 32) - 1]), rng.choice([0, 1, 65535]), rng.randrange(4)
        return f"{dimension} {width} {height} {depth} {flags} {initial}:{rng.randrange(5)} {formats} {clear}"

    def give_back(self, old):
        return f"{old[0]} {old[1]}"

    def other(self, key, old):
        rng, (verb, number) = self.rng, old
        if verb == "free" and rng.random() < 0.4:
            words, to = self.second_place(key, number)
            self.live.append(("free", to))
            return f"{words} {rng.choice(LOCATIONS)} {rng.choice(['buffer', 'target', 'texture'])} moved-{key}"
        index, kept = rng.randrange(10), rng.choice(["none", "0", str(rng.randint(1, 20) * 4 * MB)])
        twice = {"free": f"alloc {number} 1 1 Unknown buffer twice",
                 "release": f"create {number} placed Unknown buffer buffer 1 1 1 0 state:0 none none twice"}[verb]
        return rng.choice([twice, f"rename {number} other-{key}", f"free {key + 1000000}", f"release {key + 1000000}", "report", "leaks",
                           "capacity", "asked", f"committed {index}", f"committed {rng.randrange(3)}", f"budget {index} {kept}"])


def d3d12_trace(seed, commands):
    return "\n".join(D3D12Trace(seed, commands).lines).encode()
