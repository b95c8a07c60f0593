"""The signs of tools/timeline, as parts of an SVG file."""

from html import escape

# Sizes in pixels: the picture, a lane, and a letter.
WIDTH, LANE, LETTER, MARGIN = 1200, 24, 6.7, 14
LETTERS = {"suspended": "S", "blocked": "B", "running": "R", "runnable": "W"}

# For each class of the picture its property, its light and its dark colour.
COLOURS = {
    "paper": ("fill", "#ffffff", "#14181d"),
    "text": ("fill", "#1d2733", "#dfe5ec"),
    "quiet": ("fill", "#5f6b78", "#98a4b1"),
    "refused": ("fill", "#cf3f3f", "#ef6a6a"),
    "band": ("fill", "#f3f5f8", "#1b2128"),
    "rule": ("stroke", "#d5dbe2", "#343d47"),
    "moment": ("stroke", "#c3cbd4", "#424d59"),
    "ended": ("fill", "#3f8fd0", "#3a86c8"),
    "stopped": ("fill", "#8a6fc0", "#a78be0"),
    "active": ("fill", "#9cc3e4", "#2c5f8c"),
    "edge": ("stroke", "#1d2733", "#dfe5ec"),
    "trap": ("stroke", "#cf3f3f", "#ef6a6a"),
    "kept": ("fill", "#b8930a", "#e3c246"),
    "overrun": ("fill", "#d9790b", "#f59e3c"),
    "out": ("fill", "#2b8a57", "#4fc188"),
    "send": ("fill", "#0f8a94", "#3fc3cf"),
    "in": ("fill", "#7a5bb5", "#b79cf0"),
    "masked": ("stroke", "#7a8592", "#98a4b1"),
    "lost": ("stroke", "#cf3f3f", "#ef6a6a"),
    "inbar": ("fill", "#0d1116", "#ffffff"),
}
# The same where slots are watched.
WATCHED = {
    "curve": ("stroke", "#a8471f", "#f0935f"),
    "dot": ("fill", "#a8471f", "#f0935f"),
    "bits": ("fill", "#e2a483", "#8a4a2c"),
}


def style(with_watched):
    """The picture's style, light, and dark where the reader's page is."""
    colours = {**COLOURS, **(WATCHED if with_watched else {})}

    def rules(index):
        return "".join(f".{name}{{{it[0]}:{it[index]}}}" for name, it in colours.items())
    lines = ".rule,.moment{stroke-width:1}.edge,.masked,.lost{stroke-width:1.8;fill:none}.trap{stroke-width:2.6;fill:none}"
    lines += ".curve{stroke-width:1.4;fill:none}" if with_watched else ""
    font = "text{font:11px ui-monospace,Menlo,Consolas,'DejaVu Sans Mono',monospace;white-space:pre}"
    title = ".title{font-size:14px;font-weight:bold}"
    return f"<style>{font}{title}{lines}{rules(1)}@media(prefers-color-scheme:dark){{{rules(2)}}}</style>"


def text_at(x, y, words, kind="text", anchor="start"):
    return f'<text x="{x:.1f}" y="{y:.1f}" class="{kind}" text-anchor="{anchor}">{escape(words)}</text>'


def line_at(x1, y1, x2, y2, kind):
    return f'<path class="{kind}" d="M{x1:.1f} {y1:.1f}L{x2:.1f} {y2:.1f}"/>'


def bar_at(left, right, y, how, closed=True):
    """A bar whose right end tells how it ended: a stroke, a square, a red cross, or open."""
    kind = "ended" if how == "trapped" else how
    shape = f'<rect class="{kind}" x="{left:.1f}" y="{y - 6}" width="{max(2, right - left):.1f}" height="12"/>'
    if not closed:
        return shape
    ends = {
        "ended": f'<path class="edge" d="M{right:.1f} {y - 8}V{y + 8}"/>',
        "stopped": f'<rect class="edge" x="{right - 3:.1f}" y="{y - 4}" width="8" height="8"/>',
        "trapped": f'<path class="trap" d="M{right - 5:.1f} {y - 7}l11 14m0 -14l-11 14"/>',
        "active": f'<path class="active" d="M{right:.1f} {y - 8}l8 8l-8 8z"/>',
    }
    return shape + ends[how]


def mark_at(x, y, kind, label=""):
    """The sign of a mark. That of a state is its letter."""
    return {
        "kept": f'<path class="kept" d="M{x - 4:.1f} {y - 7}a4 4 0 1 0 8 0a4 4 0 1 0 -8 0z"/>',
        "overrun": f'<path class="overrun" d="M{x - 5:.1f} {y - 11}h10l-5 9z"/>',
        "out": f'<rect class="out" x="{x - 3:.1f}" y="{y - 5}" width="6" height="10"/>',
        "send": f'<path class="send" d="M{x - 4:.1f} {y - 5}l8 5l-8 5z"/>',
        "in": f'<path class="in" d="M{x + 4:.1f} {y - 5}l-8 5l8 5z"/>',
        "masked": f'<path class="masked" d="M{x - 4:.1f} {y}a4 4 0 1 0 8 0a4 4 0 1 0 -8 0m1 3l6 -6"/>',
        "lost": f'<path class="lost" d="M{x - 3.5:.1f} {y - 3.5}l7 7m0 -7l-7 7"/>',
        "state": text_at(x, y + 4, LETTERS.get(label, ""), "inbar", "middle"),
    }[kind]


def curve_at(corners, end):
    """A line that goes on level from each place to the next; at a place it goes through one height or several."""
    (left, heights), *others = corners
    path = f"M{left:.1f} {heights[0]:.1f}" + "".join(f"V{y:.1f}" for y in heights[1:])
    path += "".join(f"H{x:.1f}" + "".join(f"V{y:.1f}" for y in heights) for x, heights in others)
    return f'<path class="curve" d="{path}H{end:.1f}"/>'


def dot_at(x, y):
    return f'<circle class="dot" cx="{x:.1f}" cy="{y:.1f}" r="2"/>'


def band_at(left, right, y, on, both):
    """A band where bits are not 0, else a line; a stroke at its left end where the other comes before it at one moment."""
    shape = (f'<rect class="bits" x="{left:.1f}" y="{y - 7}" width="{max(1, right - left):.1f}" height="14"/>' if on else
             line_at(left, y + 7, right, y + 7, "curve"))
    return shape + (line_at(left, y - 7, left, y + 7, "curve") if both else "")


def titled(shape, texts):
    """A shape that shows its lines where one points at it."""
    return f'<g><title>{escape(chr(10).join(texts))}</title>{shape}</g>'


def legend(y, with_inputs):
    """The signs with their meaning, in one line."""
    signs = [
        (lambda x: bar_at(x, x + 22, y, "ended"), "ended"),
        (lambda x: bar_at(x, x + 22, y, "stopped"), "stopped"),
        (lambda x: bar_at(x, x + 22, y, "trapped"), "trapped"),
        (lambda x: bar_at(x, x + 22, y, "active"), "still active"),
        (lambda x: mark_at(x + 16, y + 6, "kept"), "kept"),
        (lambda x: mark_at(x + 16, y + 3, "overrun"), "overrun"),
        (lambda x: mark_at(x + 18, y, "out"), "out"),
        (lambda x: mark_at(x + 18, y, "send"), "send"),
        *([(lambda x: mark_at(x + 18, y, "in"), "in")] if with_inputs else []),
        (lambda x: mark_at(x + 18, y, "masked"), "masked"),
        (lambda x: mark_at(x + 18, y, "lost"), "lost"),
    ]
    parts, x = [], MARGIN
    for sign, words in signs:
        parts += [sign(x), text_at(x + 33, y + 4, words, "quiet")]
        x += 33 + LETTER * len(words) + 9
    return parts + [text_at(x, y + 4, "S B R W: suspended, blocked, running, runnable", "quiet")]
