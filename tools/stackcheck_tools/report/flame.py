"""The tree of needs as a flame graph in SVG, from left to right: the width of a box is its bytes of stack, and the deepest chain is the
first row."""

from __future__ import annotations

from html import escape
from typing import Dict, Iterator, List, Tuple

from stackcheck_tools.finding import Frame

# colours of boxes, with dark text on them: tests/units/test_page.py measures their contrast
CALLS = ("#4581d0", "#3d9db7", "#44986e", "#8385d8", "#6e9f44", "#2a9287", "#668ee9", "#6f9789")
INTERRUPTS = ("#d67b2a", "#d55c58", "#b68d1a", "#c76d91", "#dd6c4a", "#a67944")
MORE = ("#868f9c", "#7d8590", "#8f959c")
WIDTH, MARGIN, ROW, TOP = 1000, 170, 24, 26  # the drawing's width, what is left at its right for labels, a row, the axis
LETTER = 7.2


def bytes_of(count: int) -> str:
    return "1 byte" if count == 1 else f"{count} bytes"


class Box:
    """A function or handler on a way from the reset: where it begins, where it ends by its own frame, and the boxes that it enters."""

    def __init__(self, frame: Frame) -> None:
        self.name, self.begin, self.end, self.kind, self.colour = frame.name, frame.begin, frame.end, frame.kind, ""
        self.children: List[Box] = [Box(it) for it in frame.children]

    def label(self) -> str:
        """The name as a drawing has room for it: of a handler the vector alone."""
        return self.name.partition(" (__")[0]

    def reach(self) -> int:
        return max([self.end, *(it.reach() for it in self.children)])

    def has_own_row(self) -> bool:
        """Whether the own frame goes deeper than the places where others are entered."""
        return not self.children or self.end > max(it.begin for it in self.children) and self.end > max(it.reach() for it in self.children)

    def rows(self) -> int:
        return sum(it.rows() for it in self.children) + self.has_own_row()

    def parts(self, top: int) -> Iterator[Tuple[int, int, int]]:
        """Yields (first row, rows, end) of the box beside each that it enters."""
        for it in self.children:
            yield top, it.rows(), it.begin
            top += it.rows()
        if self.has_own_row():
            yield top, 1, self.end

    def all(self, top: int = 0) -> Iterator[Tuple[Box, int]]:
        """Yields each box with its first row."""
        yield self, top
        for it in self.children:
            yield from it.all(top)
            top += it.rows()


def touches(one: Tuple[int, int, int, int], other: Tuple[int, int, int, int]) -> bool:
    """Whether two parts (left, right, top, bottom) have more than a corner in common."""
    across, along = min(one[1], other[1]) - max(one[0], other[0]), min(one[3], other[3]) - max(one[2], other[2])
    return across >= 0 and along >= 0 and across + along > 0


def paint(root: Box) -> Dict[str, str]:
    """Gives each box a colour that none beside it has, and returns the first of each name."""
    parts = [(box, [(box.begin, end, row, row + rows) for row, rows, end in box.parts(top)]) for box, top in root.all()]
    colour_of: Dict[str, str] = {}
    for number, (box, own) in enumerate(parts):
        palette = {"call": CALLS, "interrupt": INTERRUPTS, "more": MORE}[box.kind]
        beside = {it.colour for it, others in parts[:number] if any(touches(a, b) for a in own for b in others)}
        free = [it for it in palette if it not in beside] or palette
        wanted = colour_of.get(box.name, "")
        box.colour = wanted if wanted in free else free[sum(box.name.encode()) % len(free)]
        colour_of.setdefault(box.name, box.colour)
    return colour_of


def outline(box: Box, top: int, scale: float) -> str:
    """The path round a box, whose right side goes in steps."""
    left, y = box.begin * scale, TOP + top * ROW
    words = [f"M{left:.1f} {y}"]
    for row, rows, end in box.parts(top):
        right = max(end * scale, left + 2)
        words.append(f"L{right:.1f} {TOP + row * ROW} L{right:.1f} {TOP + (row + rows) * ROW}")
        y = TOP + (row + rows) * ROW
    return " ".join([*words, f"L{left:.1f} {y} Z"])


def label(box: Box, top: int, scale: float) -> str:
    """The name within a box, along or upright, as far as there is room; beside it at the end of its row."""
    end = next(box.parts(top))[2]
    left, width, long = box.begin * scale, (end - box.begin) * scale, len(box.label()) * LETTER + 8
    y = TOP + top * ROW + 16
    if width >= long:
        return f'<text x="{left + 5:.1f}" y="{y}" class="in">{escape(box.label())}</text>'
    whole = box.rows() * ROW
    if width >= 16 and whole >= long:
        middle = TOP + top * ROW + 6
        return f'<text transform="translate({left + width / 2 - 4:.1f} {middle}) rotate(90)" class="in">{escape(box.label())}</text>'
    if width >= 5 * LETTER:
        return f'<text x="{left + 5:.1f}" y="{y}" class="in">{escape(box.label()[:int((width - 14) / LETTER)])}…</text>'
    return ""


def ends(root: Box, scale: float) -> Iterator[str]:
    """How deep each row goes, and the name of its last box where that doesn't stand within it."""
    for box, top in root.all():
        if not box.has_own_row():
            continue
        *_, (row, _, end) = box.parts(top)
        is_in = row == top and (end - box.begin) * scale >= len(box.label()) * LETTER + 8
        x = max(end * scale, box.begin * scale + 2) + 5
        yield f'<text x="{x:.1f}" y="{TOP + row * ROW + 16}" class="end">{end}{"" if is_in else " " + escape(box.label())}</text>'


def axis(most: int, scale: float, height: int) -> Iterator[str]:
    """Lines at round numbers of bytes."""
    step = next(it for it in (1, 2, 5, 10, 20, 50, 100, 200, 500, 1000) if most / it <= 12)
    for at in range(0, most + 1, step):
        x = at * scale
        yield (f'<line x1="{x:.1f}" y1="{TOP - 6}" x2="{x:.1f}" y2="{height}" class="grid"/>'
               f'<text x="{x + 3:.1f}" y="12" class="axis">{at}</text>')


def painted(frames: Frame) -> Tuple[Box, Dict[str, str]]:
    """The tree with its colours, and the colour of each name."""
    root = Box(frames)
    return root, paint(root)


def svg(root: Box) -> Iterator[str]:
    """The drawing of a painted tree."""
    most = max(root.reach(), 1)
    scale, height = (WIDTH - MARGIN) / most, TOP + root.rows() * ROW + 6
    yield (f'<svg viewBox="0 0 {WIDTH} {height}" xmlns="http://www.w3.org/2000/svg" role="img" aria-label="Flame graph: the functions and '
           'interrupts to which the bytes of stack belong; the table of needs has the same numbers">')
    yield from axis(most, scale, height)
    for box, top in root.all():
        title = (f"{box.name}: begins at byte {box.begin} of the stack, has a frame of {bytes_of(box.end - box.begin)} of its own, and "
                 f"reaches byte {box.reach()} with all that it enters")
        yield f'<g><title>{escape(title)}</title><path d="{outline(box, top, scale)}" fill="{box.colour}"/>{label(box, top, scale)}</g>'
    yield from ends(root, scale)
    yield "</svg>"
