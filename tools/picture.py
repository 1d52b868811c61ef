"""A picture of a course for a document."""
import html

from board_model import HSM, IPI, RFENCE, SRST
from page import COLOURS, KINDS, MEANING, NAMES

MOST_IN_A_PICTURE = 120

def short(actor, op, answer):
    """A step in a few letters."""
    name = op[0]
    if name == "ecall":
        calls = {
            (HSM, 0): "start", (HSM, 1): "stop", (HSM, 2): "status", (HSM, 3): "suspend", (SRST, 0): "reset", (IPI, 0): "ipi", (RFENCE, 0): "fence.i",
            (RFENCE, 1): "fence", (RFENCE, 2): "fence",
        }  # fmt: skip
        return calls.get(tuple(op[1:3]), "call")
    if name in ("load", "fetch") and answer[0] == "value":
        return f"{name} {answer[1]:#x}"
    return {"advance": "", "store": f"store {op[2]:#x}" if name == "store" and op[2] < 1 << 16 else "store"}.get(name, name)


class Part:
    """Of a course the steps from `first` to `last`, as the picture draws them."""

    def __init__(self, course, first, last):
        self.harts = course.harts
        place = lambda at: min(max(at, first), last + 1) - first
        self.segments = [[(place(a), place(b), shade) for a, b, shade in lane if place(a) < place(b)] for lane in course.segments]
        self.arrows = [(a - first, h, b - first, t, kind) for a, h, b, t, kind in course.arrows if first <= a and b <= last]
        self.resets, self.stale = ([at - first for at in places if first <= at <= last] for places in (course.resets, course.stale))
        self.answers, self.actors = course.answers[first : last + 1], course.actors[first : last + 1]


def legend(course, at):
    """What the colours mean that the picture has, from this place on."""
    out = []
    used = sorted({segment[2] for lanes in course.segments for segment in lanes})
    for shade in used:
        out.append(f'<rect x="{at}" y="8" width="12" height="12" fill="{COLOURS[shade]}"/><text x="{at + 16}" y="18">{NAMES[shade]}</text>')
        at += 40 + 7 * len(NAMES[shade])
    for kind in sorted({arrow[4] for arrow in course.arrows}):
        words = MEANING[kind]
        out.append(f'<path d="M{at} 14h16" stroke="{KINDS[kind]}" stroke-width="2"/><text x="{at + 20}" y="18">{words}</text>')
        at += 44 + 6 * len(words)
    if course.stale:
        out.append(f'<rect x="{at}" y="8" width="12" height="12" fill="none" stroke="#b00020" stroke-width="2"/><text x="{at + 16}" y="18">stale</text>')
    return out


def picture(course, title, steps):
    width, left, lane = 64, 64, 46
    # (without a step of the clock its lane isn't shown)
    top = 30 if -1 in course.actors else 30 - lane
    right, height = left + width * len(steps) + 10, top + lane * (course.harts + 1) + 24
    out = [
        f'<svg xmlns="http://www.w3.org/2000/svg" viewBox="0 0 {right} {height}" width="{right}" height="{height}" font-family="sans-serif" font-size="11">',
        f"<title>{html.escape(title)}</title>",
        '<defs><marker id="tip" viewBox="0 0 8 8" refX="7" refY="4" markerWidth="7" markerHeight="7" orient="auto"><path d="M0 0L8 4L0 8z"/></marker></defs>',
        f'<rect width="{right}" height="{height}" fill="#ffffff"/>',
    ]

    def x(place):
        return left + width * place

    def y(h):
        return top + lane * (h + 1)

    for h in range(course.harts):
        out.append(f'<text x="6" y="{y(h) + 18}">hart {h}</text>')
        for start, end, shade in course.segments[h]:
            out.append(f'<rect x="{x(start)}" y="{y(h)}" width="{width * (end - start)}" height="28" fill="{COLOURS[shade]}"/>')
    for place in course.resets:
        out.append(f'<rect x="{x(place) + width / 2 - 2}" y="{y(0) - 6}" width="4" height="{lane * course.harts}" fill="#b00020"/>')
    for a, h, b, t, kind in course.arrows:
        tail, head = (y(h) + (28 if t > h else 0)) if h >= 0 else top + 20, y(t) + (0 if t > h else 28)
        out.append(
            f'<path d="M{x(a) + width / 2} {tail}L{x(b) + width / 2} {head}" stroke="{KINDS[kind]}" stroke-width="1.5" fill="none" marker-end="url(#tip)"/>'
        )
    stale = set(course.stale)
    if top > 0:
        out.append(f'<text x="6" y="{top + 18}">clock</text>')
    for place, (actor, op, _, _) in enumerate(steps):
        middle = x(place) + width / 2
        at = top if actor is None else y(actor)
        if place in stale:
            out.append(f'<rect x="{x(place) + 2}" y="{at + 1}" width="{width - 4}" height="26" fill="none" stroke="#b00020" stroke-width="2"/>')
        word = short(actor, op, course.answers[place])
        out.append(f'<text x="{middle}" y="{at + 18}" text-anchor="middle">{html.escape(word) or "&#8226;"}</text>')
    out += legend(course, left)
    return "\n".join([*out, "</svg>"]) + "\n"


