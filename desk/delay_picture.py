"""A picture of a report: histogram and cumulative curve of wire and cell delays at each corner, and the worst by name.

Its ground is transparent, and each colour has nearly the same contrast to white as to the dark ground of an editor or a page.
"""
import io
import logging
import os
import re
import subprocess
import sys

from delay_rows import at_corner
from explanations import clean

# Debian's package serves this interpreter, and `python3` on PATH may be another.
SYSTEM_PYTHON = "/usr/bin/python3"
TEXT = "#777c84"
COLOURS = {"only": "#2f83d0", "min": "#25966b", "typ": "#2f83d0", "max": "#cf6a1c"}
STYLES = {"only": "-", "min": ":", "typ": "-", "max": "--"}
TITLES = {"wire": "wires", "path": "paths through cells"}
BINS = 30
# A curve has so many points, however many delays there are.
POINTS = 200
LONGEST_NAME = 52
# Where the largest delay is so many medians the axis is logarithmic.
WIDE = 50
SETTINGS = {
    "figure.constrained_layout.h_pad": 0.08,
    "figure.constrained_layout.w_pad": 0.08,
    "svg.fonttype": "none",
    "svg.hashsalt": "gdc",
    "font.sans-serif": ["DejaVu Sans", "sans-serif"],
    "font.size": 9,
    "axes.spines.top": False,
    "axes.spines.right": False,
    "axes.grid": True,
    "grid.alpha": 0.3,
    "xtick.bottom": False,
    "ytick.left": False,
    "axes.titlesize": 10,
    "axes.titlelocation": "left",
    "legend.frameon": False,
    **{name: TEXT for name in ("text.color", "axes.labelcolor", "axes.edgecolor", "xtick.color", "ytick.color", "grid.color")},
}


def has_matplotlib():
    # Where no folder of its own can be written it says so in a long line, and draws all the same.
    logging.getLogger("matplotlib").setLevel(logging.ERROR)
    try:
        import matplotlib
    except ImportError:
        return False
    return True


def take_system_python():
    """Goes on in the interpreter of the system, where this one has no matplotlib and that one has."""
    if has_matplotlib():
        return
    try:
        asked = subprocess.run([SYSTEM_PYTHON, "-c", "import matplotlib"], stdin=subprocess.DEVNULL, capture_output=True, check=False)
    except OSError:
        return
    if asked.returncode == 0:
        os.execv(SYSTEM_PYTHON, [SYSTEM_PYTHON, *sys.argv])


def missing():
    """What is said where no interpreter has matplotlib."""
    get = f"Debian's package python3-matplotlib gives it to {SYSTEM_PYTHON}, which is then taken, and pip to any other"
    return f"no picture: {sys.executable} has no matplotlib ({get})"


def label(name):
    """The bytes of a name as a text that can be drawn. Where it is too long its middle is left out."""
    text, half = clean(name), (LONGEST_NAME - 2) // 2
    text = text if len(text) <= LONGEST_NAME else f"{text[:half]}..{text[-half:]}"
    # Two dollars would begin and end a formula.
    return text.replace("$", r"\$")


def in_picoseconds(numbers):
    return [number / 1000 for number in numbers]


class Scale:
    """The axis of delays for one kind of rows, at all corners."""

    def __init__(self, corners):
        numbers = sorted(number for statistics in corners for number in statistics.numbers)
        above = [number for number in numbers if number > 0]
        self.is_log = bool(above) and numbers[0] >= 0 and above[-1] > WIDE * above[len(above) // 2]
        first, last = (above[0] if self.is_log else min(numbers[0], 0)), numbers[-1]
        self.first, self.last = first / 1000, (last if last > first else first + 1) / 1000
        self.left_out = len(numbers) - len(above) if self.is_log else 0

    def bins(self):
        if self.is_log:
            return [self.first * (self.last / self.first) ** (at / BINS) for at in range(BINS + 1)]
        return [self.first + (self.last - self.first) * at / BINS for at in range(BINS + 1)]

    def put(self, axes):
        if self.is_log:
            margin = (self.last / self.first) ** 0.02
            axes.set_xscale("log")
            axes.set_xlim(self.first / margin, self.last * margin)
        else:
            margin = (self.last - self.first) * 0.02
            axes.set_xlim(self.first - margin, self.last + margin)


def draw_histogram(axes, kind, corners, scale):
    from matplotlib.ticker import MaxNLocator

    for statistics in corners:
        corner, numbers = statistics.corner, in_picoseconds(statistics.numbers)
        shape = {"bins": scale.bins(), "histtype": "stepfilled", "linewidth": 1.4, "linestyle": STYLES[corner]}
        colour = COLOURS[corner]
        axes.hist(numbers, **shape, facecolor=colour + "30", edgecolor=colour, label="one corner" if corner == "only" else corner)
    axes.set_title(f"{corners[0].rows} {TITLES[kind]}", fontweight="bold")
    axes.set_ylabel("number of delays")
    axes.yaxis.set_major_locator(MaxNLocator(5, integer=True))
    # Above the axes no bar stands behind it.
    axes.legend(loc="lower right", bbox_to_anchor=(1, 0.98), ncol=len(corners))
    # The axis is that of the curve below.
    axes.tick_params(labelbottom=False)
    scale.put(axes)


def curve(statistics):
    """Points of the cumulative curve: a delay, and the percent of delays that do not pass it."""
    numbers, count = statistics.numbers, len(statistics.numbers)
    ranks = sorted({-(-count * at // POINTS) for at in range(1, POINTS + 1)})
    return in_picoseconds(numbers[rank - 1] for rank in ranks), [100 * rank / count for rank in ranks]


def draw_curve(axes, corners, scale):
    for statistics in corners:
        if statistics.numbers:
            delays, shares = curve(statistics)
            delays, shares = [scale.first, *delays, scale.last], [0, *shares, 100]
            corner = statistics.corner
            axes.step(delays, shares, where="post", color=COLOURS[corner], linestyle=STYLES[corner], linewidth=1.6)
    axes.set_ylabel("delays up to here in %")
    axes.set_ylim(0, 103)
    axes.set_xlabel("delay in ps" + (f"; {scale.left_out} delays of 0 are not drawn" if scale.left_out else ""))
    scale.put(axes)


def worst_rows(corners, most):
    """The rows with the largest delays at any corner, each with its name and its delay at each corner."""
    rows = {one.row.names: one for statistics in corners for one in sorted(statistics.worst, key=lambda one: one.number)}
    ordered = sorted(rows.values(), key=lambda one: -largest(one.row, corners))[:most]
    return [(one.row, [row_delay(one.row, statistics.corner) for statistics in corners]) for one in ordered]


def row_delay(row, corner):
    return max((number for number in (at_corner(delay, corner) for delay in row.delays) if number is not None), default=None)


def largest(row, corners):
    return max(number for number in (row_delay(row, one.corner) for one in corners) if number is not None)


def draw_worst(axes, kind, corners, most):
    """A line for each of the worst rows, with a mark at its delay at each corner, and its name above."""
    rows = worst_rows(corners, most)
    heights = range(0, -len(rows), -1)
    ends = in_picoseconds(largest(row, corners) for row, _ in rows)
    axes.hlines(heights, 0, ends, color=TEXT, linewidth=1, alpha=0.6)
    for at, statistics in enumerate(corners):
        delays = [float("nan") if numbers[at] is None else numbers[at] / 1000 for _, numbers in rows]
        axes.scatter(delays, heights, s=26, color=COLOURS[statistics.corner], zorder=3)
    for (row, _), height, end in zip(rows, heights, ends):
        axes.text(0, height + 0.19, f"{label(b' '.join(row.names))}: {end:.3f} ps", va="bottom", ha="left", fontsize=8)
    axes.set_title(f"The worst {TITLES[kind]} by name")
    axes.set_ylim(0.5 - most, 0.8)
    axes.set_yticks([])
    axes.spines["left"].set_visible(False)
    axes.set_xlabel("delay in ps")


def draw_kind(axes, kind, corners, most):
    scale = Scale(corners)
    draw_histogram(axes[0], kind, corners, scale)
    draw_curve(axes[1], corners, scale)
    if most:
        draw_worst(axes[2], kind, corners, most)


def figure(report, most):
    """A column for each kind of rows that the file has, with a panel below the other for each thing that is drawn."""
    from matplotlib.figure import Figure

    heights = [2.3, 2.3, 0.34 * most + 0.6][: 3 if most else 2]
    kinds = {kind: corners for kind, corners in report.kinds.items() if any(statistics.numbers for statistics in corners)}
    made = Figure(figsize=(11, sum(heights) + 0.9), constrained_layout=True)
    title = "Delays of " if kinds else "No delays in "
    made.suptitle(title + label(os.fsencode(os.path.basename(report.path))), fontsize=13, fontweight="bold")
    grid = made.subplots(len(heights), len(kinds), squeeze=False, gridspec_kw={"height_ratios": heights}) if kinds else []
    for at, (kind, corners) in enumerate(kinds.items()):
        draw_kind([row[at] for row in grid], kind, corners, most)
    return made


def short(svg):
    """The same picture without turns by nothing and without indents, and with places in hundredths of a point."""
    svg = re.sub(rb' transform="rotate\(-0 [^"]*"|(?<=\n) +', b"", svg)
    return re.sub(rb"<[^>]*>", lambda tag: re.sub(rb"(?<=\.\d\d)\d+", b"", tag[0]), svg)


def picture(report, most, kind):
    """The bytes of the picture, as `svg` or `png`. The same report gives the same picture, whatever a user has set for others."""
    import matplotlib.style

    made = io.BytesIO()
    metadata = {"Date": None, "Creator": "gdc-report"} if kind == "svg" else {"Software": None}
    with matplotlib.style.context(["default", SETTINGS]):
        figure(report, most).savefig(made, format=kind, dpi=110, transparent=True, metadata=metadata)
    return short(made.getvalue()) if kind == "svg" else made.getvalue()
