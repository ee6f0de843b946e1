"""A timeline as a picture (SVG): time runs to the right, one column a call; a band for each range, a bar for each node."""

from html import escape
from itertools import groupby

COLUMN, ROW, LANE = 26, 20, 40
LEFT, RIGHT, TOP, GAP = 84, 150, 100, 14
LETTER = 6.4  # the width of a letter of size 11
NAME = 44  # so many letters of a call's name are shown
# Colours that the colour-blind tell apart too; pending, held and due differ in their pattern as well.
STYLE = """
text { font: 11px "DejaVu Sans", Verdana, sans-serif; fill: #222; }
.title { font-size: 16px; font-weight: bold; }
.present { fill: #0072b2; } .on-present { fill: #fff; }
.pending { fill: #f0e442; stroke: #222; stroke-dasharray: 3 2; }
.held { fill: #e69f00; stroke: #222; stroke-width: 0.6; }
.due { fill: url(#hatch); stroke: #222; stroke-width: 0.6; }
.on-due { paint-order: stroke; stroke: #fff; stroke-width: 3px; }
.free { stroke: #bbb; }
.range { fill: #c7e9dd; stroke: #00664a; }
.step { fill: #fff; stroke: #222; } .finished { fill: #222; } .on-finished { fill: #fff; }
.grid { stroke: #e6e6e6; } .refused { font-style: italic; fill: #a33a00; } .middle { text-anchor: middle; } .end { text-anchor: end; }
"""
HATCH = (
    '<defs><pattern id="hatch" width="6" height="6" patternUnits="userSpaceOnUse" patternTransform="rotate(45)">'
    '<rect width="6" height="6" fill="#f3d3e4"/><line x1="0" y1="0" x2="0" y2="6" stroke="#b0477f" stroke-width="3"/></pattern></defs>'
)


def tag(name, content="", **attributes):
    written = "".join(f' {key.rstrip("_").replace("_", "-")}="{escape(str(value))}"' for key, value in attributes.items())
    return f"<{name}{written}>{content}</{name}>" if content else f"<{name}{written}/>"


def text(x, y, words, **attributes):
    return tag("text", escape(str(words)), x=round(x, 1), y=round(y, 1), **attributes)


def box(x, y, width, height, class_, words="", **attributes):
    """A rectangle that tells what it is when pointed at."""
    return tag("rect", tag("title", escape(words)) if words else "", x=x, y=y, width=width, height=height, class_=class_, **attributes)


def left_of(call):
    return LEFT + (call - 1) * COLUMN


def name_of(each):
    return f"{each.letter}: range {each.version}, {each.low} to {each.high}"


def lanes_of(ranges, last):
    """The lane of each range, and how many there are: the first that is free from its opening to its close and to the end of its name."""
    ends, lanes = [], []
    for each in ranges:
        lane = next((i for i, end in enumerate(ends) if end <= each.opened), len(ends))
        ends[lane : lane + 1] = [max(each.closed or last + 1, each.opened + 1 + len(name_of(each)) * LETTER // COLUMN)]
        lanes.append(lane)
    return lanes, len(ends)


def draw_range(each, y, last):
    """A band under its name, and a mark for each step with the number of its pairs: filled where it is finished."""
    x, until = left_of(each.opened), each.closed or last + 1
    words = name_of(each) + (f": calls {each.opened} to {each.closed}" if each.closed else ": never closed")
    yield text(x, y + 10, name_of(each))
    yield box(x, y + 14, (until - each.opened) * COLUMN, 21, "range", words, rx=4)
    for call, count, finished in each.steps:
        middle = left_of(call) + COLUMN / 2
        told = f"call {call}: a step, {count} pairs" + (", finished" if finished else "")
        yield tag("circle", tag("title", told), cx=middle, cy=y + 24.5, r=9, class_="finished" if finished else "step")
        yield text(middle, y + 28.5, count, class_="middle" + (" on-finished" if finished else ""))


def draw_node(node, rows, y):
    """A bar for each stretch of time in which the node has one key and one place."""
    yield text(LEFT - 8, y + 14, f"node {node}", class_="end")
    yield tag("line", x1=LEFT, y1=y + ROW / 2, x2=left_of(len(rows) + 1), y2=y + ROW / 2, class_="free")
    held = [(row.number, row.keys[node], row.places[node]) for row in rows if node < len(row.places)]
    for (key, place), stretch in groupby(held, key=lambda cell: cell[1:]):
        calls = [number for number, _, _ in stretch]
        if place.word == "free":
            continue
        width = len(calls) * COLUMN
        by = f" by {place.holder}" if place.holder else ""
        said = f"node {node}, key {key}: {place.word}{by}, calls {calls[0]} to {calls[-1]}"
        yield box(left_of(calls[0]), y + 2, width, ROW - 4, place.word, said)
        sign = place.holder.letter if place.holder else ""
        for short in (f"{key} {sign}".strip(), sign):
            if len(short) * LETTER <= width - 4:
                yield text(left_of(calls[0]) + width / 2, y + 14, short, class_=f"middle on-{place.word}")
                break


def words_below(row):
    words = f"{row.number} {row.call}" + (f": refused ({row.refusal})" if row.refusal else "")
    return words if len(words) <= NAME else words[: NAME - 3] + "..."


def draw_call(row, y):
    """The call's name, leaning below its column."""
    x = left_of(row.number) + COLUMN / 2 - 3
    content = tag("title", escape(f"{row.call}: {row.answer}")) + escape(words_below(row))
    return tag("text", content, x=x, y=y, transform=f"rotate(60 {x} {y})", class_="refused" if row.refusal else "named")


def draw_legend(y):
    x = 16
    for mark, words in (
        ("present", "present"),
        ("pending", "pending"),
        ("held", "held by the range of the letter"),
        ("due", "due"),
        ("free", "free"),
        ("range", "a range, open"),
        ("step", "a step and its pairs"),
        ("finished", "finished"),
    ):
        if mark == "free":
            yield tag("line", x1=x, y1=y + 6, x2=x + 20, y2=y + 6, class_=mark)
        elif mark in ("step", "finished"):
            yield tag("circle", cx=x + 10, cy=y + 6, r=7, class_=mark)
        else:
            yield box(x, y, 20, 12, mark)
        yield text(x + 26, y + 10, words)
        x += 26 + len(words) * LETTER + 18


def draw(title, rows, ranges, end):
    """The whole picture."""
    used = len(rows[-1].places) if rows else 0
    lanes, lane_count = lanes_of(ranges, len(rows))
    nodes_top = TOP + lane_count * LANE + GAP
    names_top = nodes_top + used * ROW + 14
    longest = max((len(words_below(row)) for row in rows), default=0)
    width, height = max(960, left_of(len(rows) + 1) + RIGHT), round(names_top + 0.87 * longest * LETTER + 16)
    parts = [tag("title", escape(title)), tag("style", STYLE), HATCH, box(0, 0, width, height, "ground", fill="#fff")]
    parts += [text(16, 28, title, class_="title"), text(16, 47, end), *draw_legend(62)]
    for call in range(1, len(rows) + 2):
        parts.append(tag("line", x1=left_of(call), y1=TOP - 4, x2=left_of(call), y2=names_top - 8, class_="grid"))
    if ranges:
        parts.append(text(LEFT - 8, TOP + 28.5, "ranges", class_="end"))
    for each, lane in zip(ranges, lanes):
        parts += draw_range(each, TOP + lane * LANE, len(rows))
    for node in range(used):
        parts += draw_node(node, rows, nodes_top + node * ROW)
    parts += [draw_call(row, names_top) for row in rows]
    size = dict(width=width, height=height, viewBox=f"0 0 {width} {height}")
    return '<?xml version="1.0" encoding="UTF-8"?>\n' + tag("svg", "\n" + "\n".join(parts) + "\n", xmlns="http://www.w3.org/2000/svg", **size) + "\n"
