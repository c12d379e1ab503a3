"""Pictures as SVG: the heap's shape at some moments, bytes over events, and what grows.

The colours of the 32 classes go from light to dark, so that they keep their order for whoever cannot tell hues apart, and each line
of a picture has its name at its end and a dash pattern of its own."""
import html

from heap_shape import CLASSES, POOLS_OF_ARENA, capacity_of, size_of

FONT = 'font-family="DejaVu Sans, Helvetica, Arial, sans-serif"'
FIXED = 'font-family="DejaVu Sans Mono, Courier New, monospace"'
INK, FAINT, RULE, FREE = "#222", "#555", "#e2e2de", "#f0f0ed"
SCALE = ((250, 224, 60), (160, 218, 57), (74, 193, 109), (31, 161, 135), (39, 127, 142), (54, 92, 141), (70, 50, 127), (68, 1, 84))
CELL = 11
LEFT = 34
MOST_MOMENTS = 6
MOST_ROWS = 24
MAP_WIDTH = LEFT + POOLS_OF_ARENA * CELL + 20


class NothingToDraw(Exception):
    """The input has nothing of what the picture shows."""


def colour_of(size_class):
    along = size_class / (CLASSES - 1) * (len(SCALE) - 1)
    low = min(int(along), len(SCALE) - 2)
    mixed = (round(a + (b - a) * (along - low)) for a, b in zip(SCALE[low], SCALE[low + 1]))
    return "#{:02x}{:02x}{:02x}".format(*mixed)


def svg(width, height, title, body):
    return (
        f'<svg xmlns="http://www.w3.org/2000/svg" width="{width}" height="{height}" viewBox="0 0 {width} {height}" role="img">'
        f'<title>{html.escape(title)}</title><rect width="100%" height="100%" fill="white"/>{"".join(body)}</svg>\n'
    )


def text(x, y, size, words, ink=INK, anchor="start", font=FONT):
    return f'<text x="{x:g}" y="{y:g}" font-size="{size}" {font} fill="{ink}" text-anchor="{anchor}">{html.escape(words)}</text>'


def box(x, y, width, height, ink, more=""):
    return f'<rect x="{x:g}" y="{y:g}" width="{width:g}" height="{height:g}" fill="{ink}"{more}/>'


def line(x1, y1, x2, y2, ink):
    return f'<line x1="{x1:g}" y1="{y1:g}" x2="{x2:g}" y2="{y2:g}" stroke="{ink}"/>'


def spell_bytes(count):
    for unit, size in (("MiB", 1 << 20), ("KiB", 1 << 10)):
        if count >= size:
            return f"{round(count / size, 1):g} {unit}"
    return f"{count} B"


def plural(count, what):
    return f"{count:,} {what}" + "s" * (count != 1)


# ---- The heap's shape


def draw_pools(size_class, pools):
    """Squares of one class, as (x, y, live blocks, tip): each is filled from below as far as its blocks are live."""
    ink, side = colour_of(size_class), CELL - 1
    out, filled = [f'<g fill="white" stroke="{ink}" stroke-width="0.6">'], []
    for x, y, live, tip in pools:
        high = max(1, round(side * live / capacity_of(size_class)))
        out.append(f'<path d="M{x}.3 {y}.3h{side - 0.6}v{side - 0.6}h{0.6 - side}z"><title>{html.escape(tip)}</title></path>')
        filled.append(f"M{x} {y + side - high}h{side}v{high}h-{side}z")
    out.append(f'</g><path pointer-events="none" fill="{ink}" d="{"".join(filled)}"/>')
    return "".join(out)


def draw_free(corners):
    """Free pools as grey squares, from their corners."""
    side = CELL - 1
    return f'<path fill="{FREE}" d="{"".join(f"M{x} {y}h{side}v{side}h-{side}z" for x, y in corners)}"/>'


def tip_of(arena, place, size_class, live):
    return f"arena {arena}, pool {place}: blocks of {size_of(size_class)} bytes, {live} of {capacity_of(size_class)}"


def caption_of(moment):
    shape = f"{plural(moment.in_pools, 'block')} in pools, {moment.raw:,} in raw memory, {plural(len(moment.arenas), 'arena')}"
    return f"event {moment.event:,}: {shape}"


def draw_moment(moment, y):
    """The arenas of one moment as rows, and the height that they take."""
    out, free, taken = [text(LEFT - 20, y, 12, caption_of(moment))], [], {}
    top = y + 8
    for number in sorted(moment.arenas)[:MOST_ROWS]:
        out.append(text(LEFT - 5, top + CELL - 2, 9, str(number), FAINT, "end"))
        for place, pool in enumerate(moment.arenas[number]):
            x = LEFT + place * CELL
            if pool:
                size_class, live = pool
                taken.setdefault(size_class, []).append((x, top, live, tip_of(number, place, size_class, live)))
            else:
                free.append((x, top))
        top += CELL
    out.append(draw_free(free))
    out += [draw_pools(size_class, pools) for size_class, pools in sorted(taken.items())]
    hidden = len(moment.arenas) - MOST_ROWS
    if hidden > 0:
        out.append(text(LEFT, top + 10, 9, f"and {plural(hidden, 'more arena')}", FAINT))
        top += 12
    return out, top - y


def legend(y):
    """The colours of the classes with some of their sizes, and what a square says."""
    first = LEFT + 72
    out = [text(LEFT - 20, y + 10, 10, "bytes of a block", FAINT)]
    for size_class in range(CLASSES):
        x = first + size_class * 13
        out.append(box(x, y, 12, 12, colour_of(size_class)))
        if size_of(size_class) in (16, 64, 128, 256, 384, 512):
            out.append(text(x + 6, y + 23, 9, str(size_of(size_class)), FAINT, "middle"))
    x = first + CLASSES * 13 + 14
    out += [draw_free([(x, y + 1)]), text(x + 15, y + 10, 10, "free pool", FAINT)]
    out += [draw_pools(20, [(x + 72, y + 1, 24, "half of its blocks are live")]), text(x + 87, y + 10, 10, "live blocks", FAINT)]
    return out


def spread(moments, most):
    """At most so many of the moments, evenly spread, the first and the last among them."""
    if len(moments) <= most:
        return moments
    return [moments[round(k * (len(moments) - 1) / (most - 1))] for k in range(most)]


def draw_map(moments):
    if not moments:
        raise NothingToDraw("the report shows no heap")
    out, y = legend(14), 64
    for moment in spread(moments, MOST_MOMENTS):
        drawn, height = draw_moment(moment, y)
        out += drawn
        y += height + 24
    return svg(MAP_WIDTH, y - 8, "The heap's arenas and pools", out)


# ---- Bytes over events

TIME_WIDTH, TIME_HEIGHT = 760, 260
TIME_LEFT, TIME_RIGHT, TIME_TOP, TIME_BOTTOM = 64, 150, 18, 32
LINES = (
    ("arenas", "arenas", "#767672", "", 1.4),
    ("pools", "pools taken", "#0072b2", "", 1.8),
    ("asked", "asked for in all", "#00704f", "7 2", 1.8),
    ("raw", "raw memory", "#b34700", "2 2", 1.8),
)


def step_of(greatest, steps=(1, 2, 5)):
    """A round step that makes at most six marks up to the greatest value."""
    unit = 1
    while True:
        for step in steps:
            if greatest / (step * unit) <= 6:
                return step * unit
        unit *= 10


def byte_step_of(greatest):
    step = 1024
    while greatest / step > 6:
        step *= 2
    return step


class Axes:
    """Where an event and a number of bytes lie in the picture."""

    def __init__(self, points):
        self.last_event = points[-1].event
        self.most_bytes = max(max(point[1:]) for point in points) or 1

    def x(self, event):
        return TIME_LEFT + (TIME_WIDTH - TIME_LEFT - TIME_RIGHT) * event / self.last_event

    def y(self, count):
        return TIME_HEIGHT - TIME_BOTTOM - (TIME_HEIGHT - TIME_TOP - TIME_BOTTOM) * count / self.most_bytes

    def draw(self):
        right, low = TIME_WIDTH - TIME_RIGHT, TIME_HEIGHT - TIME_BOTTOM
        out = []
        step = byte_step_of(self.most_bytes)
        for count in range(0, self.most_bytes + 1, step):
            out.append(line(TIME_LEFT, self.y(count), right, self.y(count), RULE))
            out.append(text(TIME_LEFT - 6, self.y(count) + 3, 10, spell_bytes(count), FAINT, "end"))
        step = step_of(self.last_event)
        for event in range(0, self.last_event + 1, step):
            out.append(line(self.x(event), low, self.x(event), low + 4, FAINT))
            out.append(text(self.x(event), low + 15, 10, f"{event:,}", FAINT, "middle"))
        out.append(text(right, TIME_HEIGHT - 3, 10, "event", FAINT, "end"))
        return out


def draw_line(axes, points, field, ink, dashes, width):
    """Steps from point to point, since between events nothing changes."""
    path = []
    for k, point in enumerate(points):
        x, y = axes.x(point.event), axes.y(getattr(point, field))
        path.append(f"H{x:.1f}V{y:.1f}" if k else f"M{x:.1f} {y:.1f}")
    dash = f' stroke-dasharray="{dashes}"' if dashes else ""
    return f'<path d="{"".join(path)}" fill="none" stroke="{ink}" stroke-width="{width}"{dash}/>'


def place_labels(wanted, lowest):
    """Heights for labels, at least 13 apart and none below the lowest, from those wanted in rising order."""
    placed = []
    for y in wanted:
        placed.append(max(y, placed[-1] + 13) if placed else y)
    over = max(0, placed[-1] - lowest)
    return [y - over for y in placed]


def time_body(points):
    """What the picture of bytes over events shows, without its frame."""
    axes, right = Axes(points), TIME_WIDTH - TIME_RIGHT
    out, ends = axes.draw(), []
    for field, name, ink, dashes, width in LINES:
        if any(getattr(point, field) for point in points):
            out.append(draw_line(axes, points, field, ink, dashes, width))
            last = getattr(points[-1], field)
            ends.append((axes.y(last), f"{name} {spell_bytes(last)}", ink))
    if ends:
        ends.sort(key=lambda end: end[0])
        heights = place_labels([y for y, _, _ in ends], TIME_HEIGHT - TIME_BOTTOM)
        out += [text(right + 6, y + 3, 10, words, ink) for y, (_, words, ink) in zip(heights, ends)]
    return out


def draw_time(points):
    if not points:
        raise NothingToDraw("the report has no event")
    return svg(TIME_WIDTH, TIME_HEIGHT, "Bytes over events", time_body(points))


# ---- What grows

GROWTH_WIDTH, GROWTH_ROW = 860, 52
MOST_KEY = 96


def read_growth(lines):
    """The keys that grow, as (growth, sizes, key), from lines `+D SIZE.. KEY` below the first."""
    rows = []
    for words in (row.split() for row in lines[1:]):
        if words:
            last = 1
            while last < len(words) and words[last].isdigit():
                last += 1
            rows.append((int(words[0]), [int(word) for word in words[1:last]], " ".join(words[last:])))
    return rows


def draw_key(y, growth, sizes, key):
    """A line through the sizes, from zero, and the key with its growth in words."""
    top, out = max(sizes) or 1, [line(20, y + 34, 180, y + 34, RULE)]
    spots = [(20 + k * 160 / max(1, len(sizes) - 1), y + 34 - 30 * size / top) for k, size in enumerate(sizes)]
    path = " ".join(f"{x:.1f},{h:.1f}" for x, h in spots)
    out.append(f'<polyline points="{path}" fill="none" stroke="#0072b2" stroke-width="1.6"/>')
    out += [f'<circle cx="{x:.1f}" cy="{h:.1f}" r="2.2" fill="#0072b2"/>' for x, h in spots]
    shown = key if len(key) <= MOST_KEY else "..." + key[3 - MOST_KEY :]
    out.append(text(200, y + 14, 12, f"+{spell_bytes(growth)}"))
    out.append(text(290, y + 14, 11, f"{spell_bytes(sizes[0])} to {spell_bytes(sizes[-1])}", FAINT))
    out.append(text(200, y + 31, 11, shown, font=FIXED))
    return out


def draw_growth(lines):
    if not lines or not lines[0].startswith("growth "):
        raise NothingToDraw("the input is not what the command growth prints")
    rows = read_growth(lines)
    if not rows:
        raise NothingToDraw("nothing grows")
    out, y = [], 14
    for row in rows:
        out += draw_key(y, *row)
        y += GROWTH_ROW
    return svg(GROWTH_WIDTH, y + 4, "What grows", out)
