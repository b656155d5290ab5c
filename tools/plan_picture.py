"""The picture `gpu_picture` has to draw of a plan trace, by docs/REPORT.md and a plain account of the trace (tools/account.py)."""
import account
import timeline
from xml.sax.saxutils import escape

WIDTH, HEIGHT = 10000, 4500
STYLE = (
    "<style>rect{stroke:#000;stroke-width:1}.sheet{fill:#fff;stroke:none}.gap,.rest{fill:#eee}.padding{fill:#cc79a7}.linear{fill:#56b4e9}"
    ".nonlinear{fill:#e69f00}.piece{fill:#009e73}.line{stroke:#000;stroke-width:4;stroke-dasharray:12 24}</style>\n"
    '<rect class="sheet" width="100%" height="100%"/>\n')
PEAK = 'stroke="#d55e00" stroke-width="16"'
LEGEND = (
    "".join(f'<rect class="{it}" x="{x}" y="400" width="150" height="150"/><text x="{x + 200}" y="520">{it}</text>\n'
            for x, it in [(200, "linear"), (1700, "nonlinear"), (3200, "gap")])
    + f'<path d="M4700 475h150" {PEAK}/><text x="4900" y="520">peak</text>\n'
    '<path class="line" d="M6275 400v150"/><text x="6400" y="520">start of a pass</text>\n')


def plan_of(trace):
    """What is planned behind the last line, each resource's offset, the heap and the peak; None where no heap is large enough."""
    *_, (_, _, machine) = account.served(trace)
    heap, offsets = min(map(machine.in_order, machine.ORDERS), key=lambda plan: plan[0])
    if heap > account.MAX:
        return None
    peak = max((machine.bytes_alive(it.first) for it in machine.resources), default=0)
    return machine.resources, offsets, heap, peak


def scaled(size, width, at):
    return min(at, size) * width // size if size else 0


def resource(it, offset, passes, heap):
    left, right = (scaled(passes, WIDTH, pass_) for pass_ in (it.first, min(it.last + 1, account.MAX)))
    bottom, top = (HEIGHT - scaled(heap, HEIGHT, at) for at in (offset, offset + it.size))
    kind, name = it.kind.lower(), escape(it.name, {'"': "&quot;"})
    label = f'<text x="{left + 30}" y="{top + 120}">{name}</text>\n' if bottom - top >= 150 and len(it.name) * 75 <= right - left else ""
    return (f'<rect class="{kind}" x="{left}" width="{right - left}" y="{top}" height="{bottom - top}">'
            f"<title>{kind}, {it.size} bytes at {offset}, passes {it.first} to {it.last}: {name}</title></rect>\n{label}")


def pass_start(number, passes):
    x = scaled(passes, WIDTH, number)
    return f'<path class="line" d="M{x} 0v{HEIGHT}"/><text x="{x + 30}" y="4630">{number}</text>\n'


def picture(trace):
    plan = plan_of(trace)
    if plan is None:
        return None
    resources, offsets, heap, peak = plan
    passes = max((min(it.last + 1, account.MAX) for it in resources), default=0)
    head = f"{len(resources)} resources in {passes} passes: heap {timeline.amount(heap)}, peak {timeline.amount(peak)}"
    return (f'<svg xmlns="http://www.w3.org/2000/svg" width="1040" height="560" viewBox="0 0 10400 5600" font-family="monospace" '
            f'font-size="110">\n{STYLE}<text x="200" y="250" font-size="150">{head}</text>\n{LEGEND}<g transform="translate(200 700)">\n'
            f'<rect class="gap" width="{WIDTH}" height="{HEIGHT}"><title>heap, {heap} bytes</title></rect>\n'
            + "".join(resource(it, offsets[it], passes, heap) for it in resources)
            + "".join(pass_start(number, passes) for number in range(passes if passes <= 50 else 0))
            + f'<path d="M0 {HEIGHT - scaled(heap, HEIGHT, peak)}h{WIDTH}" {PEAK}><title>peak, {peak} bytes</title></path>\n</g>\n</svg>\n').encode()
