"""A drawing of a download (SVG): time across, pieces up, a colour for each peer."""

from __future__ import annotations

from collections import Counter
from collections.abc import Iterable
from html import escape

from .ticks import ticks
from .trace import Trace

COLOURS = (
    "#1f77b4", "#ff7f0e", "#2ca02c", "#9467bd", "#8c564b", "#e377c2", "#17becf", "#bcbd22", "#7f7f7f", "#393b79", "#637939", "#8c6d31",
)  # fmt: skip
ENDGAME = "#d62728"
LEFT, TOP, WIDTH, HEIGHT = 90, 64, 800, 480
STRIP = 14  # width of the strip of how many peers show a piece
COLUMNS, MOST_ROWS = 400, 240
LEGEND_LINE, LEGEND_TOP = 18, 62
MEANINGS = (
    "A mark is a block, when it came, in the colour of the peer that sent it. A complete row is tinted, in the colour of who brought most of it.",
    "Marks above each other came together: a peer with a limited rate sends in bursts.",
    "The strip at the left says how many peers showed a piece when it was first requested. A red dot is a block asked of a second peer.",
)


class Grid:
    """Blocks in rows, many of them in one row where there are many; and times in columns."""

    def __init__(self, trace: Trace, by_rarity: bool) -> None:
        self.trace = trace
        self.rows = min(MOST_ROWS, trace.blocks)
        self.height = HEIGHT / self.rows
        order = sorted(range(trace.pieces), key=lambda piece: (trace.shown_by.get(piece, 0), piece)) if by_rarity else range(trace.pieces)
        self.place = {piece: place for place, piece in enumerate(order)}
        self.order = list(order)

    def row(self, block: int) -> int:
        """The row of a block, from the bottom."""
        piece, inside = divmod(block, self.trace.blocks_each)
        placed = self.place[piece] * self.trace.blocks_each + inside
        return min(placed * self.rows // self.trace.blocks, self.rows - 1)

    def column(self, at: float) -> int:
        """The column of a time."""
        return min(int(at * COLUMNS / self.trace.end), COLUMNS - 1) if self.trace.end else 0

    def y(self, row: float) -> float:
        """The middle of a row."""
        return TOP + HEIGHT - (row + 0.5) * self.height

    def x(self, column: float) -> float:
        """The left side of a column."""
        return LEFT + column * WIDTH / COLUMNS


def short(number: float) -> str:
    """A number with no more digits than are seen."""
    return f"{number:.1f}".removesuffix(".0")


def _path(segments: Iterable[tuple[float, float, float]], colour: str, width: float, opacity: float = 1.0) -> str:
    """Horizontal lines of one colour: where they begin, and how long they are."""
    data = "".join(f"M{short(x)} {short(y)}h{short(length)}" for x, y, length in segments)
    return f'<path d="{data}" stroke="{colour}" stroke-width="{width:.2f}" opacity="{opacity}"/>' if data else ""


def _text(x: float, y: float, text: str, anchor: str = "start", more: str = "") -> str:
    return f'<text x="{short(x)}" y="{short(y)}" text-anchor="{anchor}"{more}>{escape(text)}</text>'


def colour_of(number: int) -> str:
    """The colour of a peer."""
    return COLOURS[number % len(COLOURS)]


def _marks(grid: Grid) -> list[str]:
    """Each block where and when it came, and behind a row that is whole a tint of the peer that brought most of it."""
    trace = grid.trace
    cells: dict[tuple[int, int], int] = {}
    last: dict[int, int] = {}
    brought: dict[int, Counter[int]] = {}
    for at, block, peer in zip(trace.came_at, trace.came_block, trace.came_peer, strict=True):
        row, column = grid.row(block), grid.column(at)
        cells[row, column] = peer
        last[row] = max(last.get(row, 0), column)
        brought.setdefault(row, Counter())[peer] += 1
    drawn = []
    for number in range(len(trace.names)):
        whole = [
            (grid.x(last[row] + 1), grid.y(row), grid.x(COLUMNS) - grid.x(last[row] + 1))
            for row, peers in brought.items() if peers.most_common(1)[0][0] == number
        ]  # fmt: skip
        drawn.append(_path(whole, colour_of(number), grid.height, 0.25))
    mark = max(2.5, WIDTH / COLUMNS)
    for number in range(len(trace.names)):
        came = [(grid.x(column), grid.y(row), mark) for (row, column), peer in sorted(cells.items()) if peer == number]
        drawn.append(_path(came, colour_of(number), grid.height))
    return drawn


def _strip(grid: Grid) -> list[str]:
    """At the left, how many peers showed each piece when it was first requested: the fewer, the darker."""
    shown, pieces = grid.trace.shown_by, grid.trace.pieces
    if not shown:
        return []
    most = max(shown.values())
    drawn, height, place = [], HEIGHT / pieces, 0
    while place < pieces:
        count, first = shown.get(grid.order[place], 0), place
        while place < pieces and shown.get(grid.order[place], 0) == count:
            place += 1
        grey = 40 + int(190 * count / max(most, 1))
        fill = f"rgb({grey},{grey},{grey})" if count else "none"
        drawn.append(
            f'<rect x="{LEFT - STRIP - 4}" y="{TOP + HEIGHT - place * height:.2f}" width="{STRIP}" height="{(place - first) * height:.2f}" '
            f'fill="{fill}"/>'
        )
    levels = sorted(set(shown.values()))
    told = f"shown by {levels[0]}" if len(levels) == 1 else f"shown by {levels[0]} (dark) to {levels[-1]}"
    drawn.append(_text(LEFT - STRIP - 4, TOP - 8, told, more=' font-size="10"'))
    return drawn


def _endgame(grid: Grid) -> list[str]:
    """From the first block on that was requested of a second peer, and each such request."""
    trace = grid.trace
    if not trace.again_at:
        return []
    x = grid.x(grid.column(trace.again_at[0]))
    drawn = [f'<line x1="{short(x)}" y1="{TOP - 6}" x2="{short(x)}" y2="{TOP + HEIGHT}" stroke="{ENDGAME}" stroke-dasharray="4 3"/>']
    drawn.append(_text(x, TOP - 10, "endgame", "middle", f' fill="{ENDGAME}"'))
    cells = sorted({(grid.column(at), grid.row(block)) for at, block in zip(trace.again_at, trace.again_block, strict=True)})
    drawn += [f'<circle cx="{short(grid.x(column))}" cy="{short(grid.y(row))}" r="2" fill="{ENDGAME}"/>' for column, row in cells]
    return drawn


def _axes(grid: Grid, by_rarity: bool) -> list[str]:
    """A frame, the times below and the pieces at the left, both at round numbers and with their names."""
    trace, bottom, middle = grid.trace, TOP + HEIGHT, TOP + HEIGHT / 2
    drawn = [f'<rect x="{LEFT}" y="{TOP}" width="{WIDTH}" height="{HEIGHT}" fill="none" stroke="#888"/>']
    for at in ticks(trace.end, is_whole=trace.unit != "s") if trace.end else [0.0]:
        x = LEFT + (WIDTH * at / trace.end if trace.end else 0)
        drawn.append(f'<line x1="{short(x)}" y1="{bottom}" x2="{short(x)}" y2="{bottom + 4}" stroke="#888"/>')
        drawn.append(_text(x, bottom + 16, f"{at:g}", "middle"))
    drawn.append(_text(LEFT + WIDTH / 2, bottom + 34, "seconds" if trace.unit == "s" else trace.unit or "calls", "middle", ' fill="#555"'))
    for piece in [] if by_rarity else ticks(trace.pieces, is_whole=True):
        drawn.append(_text(LEFT - STRIP - 8, bottom - HEIGHT * piece / trace.pieces + 4, f"{piece:g}", "end"))
    name, turn = ("pieces, the rarest below" if by_rarity else "piece"), f' transform="rotate(-90 20 {short(middle)})" fill="#555"'
    drawn.append(_text(20, middle, name, "middle", turn))
    return drawn


def _legend(trace: Trace) -> list[str]:
    """Each peer with its colour and its blocks, and what the other marks mean."""
    counts = Counter(trace.came_peer)
    drawn = []
    for number, name in enumerate(trace.names):
        x, y = LEFT + number % 2 * WIDTH / 2, TOP + HEIGHT + LEGEND_TOP + number // 2 * LEGEND_LINE
        drawn.append(f'<rect x="{short(x)}" y="{short(y - 10)}" width="12" height="12" fill="{colour_of(number)}"/>')
        drawn.append(_text(x + 18, y, f"{name}: {counts[number]} blocks"))
    y = TOP + HEIGHT + LEGEND_TOP + (len(trace.names) + 1) // 2 * LEGEND_LINE + 4
    for number, line in enumerate(MEANINGS):
        drawn.append(_text(LEFT, y + number * LEGEND_LINE, line, more=' fill="#555"'))
    return drawn


def draw(trace: Trace, title: str, by_rarity: bool = False) -> str:
    """The drawing. `by_rarity` puts the pieces that fewest peers show at the bottom, and not the first ones."""
    grid = Grid(trace, by_rarity)
    height = TOP + HEIGHT + LEGEND_TOP + ((len(trace.names) + 1) // 2 + len(MEANINGS)) * LEGEND_LINE
    told = f"{trace.pieces} pieces, {len(trace.came_at)} of {trace.blocks} blocks"
    if trace.again_at:
        told += f", {len(trace.again_at)} requests in endgame"
    if trace.twice:
        told += f", {trace.twice} blocks came twice"
    if trace.failed:
        told += f", {trace.failed} checks failed"
    parts = [
        f'<svg xmlns="http://www.w3.org/2000/svg" viewBox="0 0 {LEFT + WIDTH + 40} {height}" font-family="sans-serif" font-size="12" fill="#222">',
        '<rect width="100%" height="100%" fill="white"/>',
        _text(LEFT, 22, title, more=' font-size="15" font-weight="bold"'), _text(LEFT, 40, told, more=' fill="#555"'),
        '<g fill="none" shape-rendering="crispEdges">', *_marks(grid), "</g>",
        *_strip(grid), *_endgame(grid), *_axes(grid, by_rarity), *_legend(trace), "</svg>",
    ]  # fmt: skip
    return "\n".join(part for part in parts if part) + "\n"
