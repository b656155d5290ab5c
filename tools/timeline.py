"""The picture `gpu_picture over-time` has to draw of a trace, by docs/REPORT.md and a plain account of the trace (tools/account.py)."""
import account

COLUMNS, WIDTH, HEIGHT, TOP, LEFT = 1000, 10000, 1000, 150, 200
UNITS = ["B", "KiB", "MiB", "GiB", "TiB", "PiB", "EiB"]
STYLE = (
    "<style>.sheet{fill:#fff}.frame{fill:none;stroke:#999;stroke-width:4}.blocks{fill:none;stroke:#0072b2;stroke-width:16}"
    ".pieces{fill:none;stroke:#e69f00;stroke-width:16}.refused{stroke:#000;stroke-width:16}</style>\n"
    '<rect class="sheet" width="100%" height="100%"/>\n')
LEGEND = (
    '<path class="blocks" d="M200 475h150"/><text x="400" y="520">bytes of blocks</text>\n'
    '<path class="pieces" d="M2200 475h150"/><text x="2400" y="520">bytes of pieces</text>\n'
    '<path class="refused" d="M4275 400v150"/><text x="4400" y="520">a refused command</text>\n')


class Sample:
    """A command's line, whether it was answered by an error, and of each memory type the bytes of its blocks and of its pieces."""

    def __init__(self, line, reply, machine, is_over):
        self.line, self.is_refused = line, reply.startswith("error ")
        if is_over:
            self.usages = []
        elif isinstance(machine, account.BlockTrace):
            self.usages = [(machine.block.size, machine.block.allocated())]
        else:
            self.usages = [(it.capacity(), sum(block.allocated() for block in it.blocks())) for it in machine.types]


def samples_of(trace):
    """There are no memory types where `new` was refused, and none behind `destroy`."""
    samples = []
    for line, reply, machine in account.served(trace):
        is_over = reply.startswith("held ") or not samples and reply.startswith("error ")
        samples.append(Sample(line, reply, machine, is_over))
    return samples


def amount(count):
    """In the largest unit that is reached, cut to a tenth."""
    power = max(i for i in range(len(UNITS)) if i == 0 or count >= 1 << 10 * i)
    if power == 0:
        return f"{count} B"
    tenths = count * 10 >> 10 * power
    return f"{tenths // 10}.{tenths % 10} {UNITS[power]}"


def columns(values):
    """The values by column: one in each, or as even as a thousand columns can be."""
    count = min(len(values), COLUMNS)
    return [(WIDTH * i // count, values[i * len(values) // count:(i + 1) * len(values) // count]) for i in range(count)]


def curve(name, values, scale):
    level = lambda value: TOP + HEIGHT - (value * HEIGHT // scale if scale else 0)
    steps = "".join(f"H{x}V{level(min(part))}V{level(max(part))}" for x, part in columns(values))
    return f'<path class="{name}" d="M0 {TOP + HEIGHT}{steps}H{WIDTH}"/>\n'


def peak(samples, values):
    return f"{amount(max(values))} at line {samples[values.index(max(values))].line}"


def chart(index, samples):
    held = [it.usages[index] if it.usages else (0, 0) for it in samples]
    blocks, pieces = [it[0] for it in held], [it[1] for it in held]
    return (f'<g transform="translate({LEFT} {index * 1400 + 800})">\n'
            f'<text x="0" y="110">type {index}: blocks at most {peak(samples, blocks)}, pieces at most {peak(samples, pieces)}</text>\n'
            f'<rect class="frame" y="{TOP}" width="{WIDTH}" height="{HEIGHT}"/>\n'
            f'{curve("blocks", blocks, max(blocks))}{curve("pieces", pieces, max(blocks))}</g>\n')


def mark(x, part):
    line = next((it.line for it in part if it.is_refused), None)
    return f'<path class="refused" d="M{LEFT + x} 600v150"><title>line {line}</title></path>\n' if line else ""


def picture(trace):
    samples = samples_of(trace)
    types = max((len(it.usages) for it in samples), default=0)
    height, refused = types * 140 + 80, sum(it.is_refused for it in samples)
    return (f'<svg xmlns="http://www.w3.org/2000/svg" width="1040" height="{height}" viewBox="0 0 10400 {height}0" font-family="monospace" '
            f'font-size="110">\n{STYLE}<text x="200" y="250" font-size="150">{len(samples)} commands, {refused} refused</text>\n{LEGEND}'
            + "".join(mark(x, part) for x, part in columns(samples)) + "".join(chart(at, samples) for at in range(types)) + "</svg>\n").encode()
