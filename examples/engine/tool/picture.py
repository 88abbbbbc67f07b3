"""A picture of what was measured: plots over time, one below the other, as SVG."""
from dataclasses import dataclass
from html import escape

WIDTH, LEFT, RIGHT, TOP, HEIGHT, GAP, BOTTOM = 860, 78, 22, 64, 190, 42, 78
INK, PALE, GRID, BAND = "#24292f", "#57606a", "#d8dee4", "#e9f2fb"
DASHES = "5 4"
FONT = 'font-family="Helvetica, Arial, sans-serif"'


@dataclass
class Plot:
    title: str
    legend: str
    color: str
    points: list  # (milliseconds, value), rising in time
    low: float
    high: float
    step: float  # between two marks of the axis
    form: str = "{:g}"  # of their numbers


@dataclass
class Picture:
    title: str
    time_title: str
    end: float  # milliseconds: the time axis goes from 0 to there
    plots: list
    marks: list  # (milliseconds, text)
    mark_legend: str
    bands: list  # (from, to, text, whether it's shaded)
    band_legend: str

    def x(self, time):
        return LEFT + (WIDTH - LEFT - RIGHT) * time / self.end

    def svg(self):
        height = TOP + len(self.plots) * (HEIGHT + GAP) - GAP + BOTTOM
        lines = [
            f'<svg xmlns="http://www.w3.org/2000/svg" viewBox="0 0 {WIDTH} {height}" width="{WIDTH}" height="{height}" {FONT}>',
            frame(0, 0, WIDTH, height, "#ffffff"),
            text(LEFT, 24, self.title, size=16, weight="bold"),
        ]
        for number, plot in enumerate(self.plots):
            lines += self.drawn(plot, TOP + number * (HEIGHT + GAP))
        lines += [*self.named_bands(TOP - 10), *self.named_marks(), *self.time_axis(height - BOTTOM), *self.legend(height - 16)]
        return "\n".join(lines + ["</svg>", ""])

    def drawn(self, plot, top):
        """A plot in its frame: bands, the value axis, marks, and the line."""
        def y(value):
            return top + HEIGHT * (plot.high - value) / (plot.high - plot.low)

        for begin, end, _, shaded in self.bands:
            if shaded:
                yield frame(self.x(begin), top, self.x(end) - self.x(begin), HEIGHT, BAND)
        for number in range(round((plot.high - plot.low) / plot.step) + 1):
            value = plot.low + number * plot.step
            yield line(LEFT, y(value), WIDTH - RIGHT, y(value), GRID)
            yield text(LEFT - 8, y(value) + 4, plot.form.format(value), anchor="end")
        for time, _ in self.marks:
            yield line(self.x(time), top, self.x(time), top + HEIGHT, PALE, DASHES)
        points = " ".join(f"{self.x(time):.1f},{y(value):.1f}" for time, value in plot.points)
        yield f'<polyline points="{points}" fill="none" stroke="{plot.color}" stroke-width="2" stroke-linejoin="round"/>'
        yield frame(LEFT, top, WIDTH - LEFT - RIGHT, HEIGHT, "none", PALE)
        middle = top + HEIGHT / 2
        yield text(20, middle, plot.title, size=13, weight="bold", anchor="middle", turn=f"rotate(-90 20 {middle:.0f})")

    def named_bands(self, y):
        for begin, end, name, _ in self.bands:
            yield text((self.x(begin) + self.x(end)) / 2, y, name, anchor="middle", color=PALE)

    def named_marks(self):
        """Below each plot but the last, what happened at each mark."""
        for number in range(1, len(self.plots)):
            for time, name in self.marks:
                yield text(self.x(time), TOP + number * (HEIGHT + GAP) - GAP / 2 + 4, name, anchor="middle", color=PALE)

    def time_axis(self, y):
        step = next(step for step in (500, 1000, 2000, 5000, 10000, 20000, 60000, 600000) if self.end / step <= 15)
        for number in range(int(self.end / step) + 1):
            yield line(self.x(number * step), y, self.x(number * step), y + 5, PALE)
            yield text(self.x(number * step), y + 19, f"{number * step:,}", anchor="middle")
        yield text((LEFT + WIDTH - RIGHT) / 2, y + 36, self.time_title, size=13, weight="bold", anchor="middle")

    def legend(self, y):
        """Each plot's line, a mark, and a shaded band."""
        at = LEFT
        for name, color, dashes in [*((it.legend, it.color, None) for it in self.plots), (self.mark_legend, PALE, DASHES)]:
            yield line(at, y - 4, at + 26, y - 4, color, dashes, 2)
            yield text(at + 33, y, name)
            at += 33 + 6.4 * len(name) + 20
        yield frame(at, y - 11, 26, 14, BAND, PALE)
        yield text(at + 33, y, self.band_legend)


def frame(x, y, width, height, fill, color="none"):
    return f'<rect x="{x:.1f}" y="{y:.1f}" width="{width:.1f}" height="{height}" fill="{fill}" stroke="{color}"/>'


def line(x1, y1, x2, y2, color, dash=None, width=1):
    dashes = f' stroke-dasharray="{dash}"' if dash else ""
    return f'<line x1="{x1:.1f}" y1="{y1:.1f}" x2="{x2:.1f}" y2="{y2:.1f}" stroke="{color}" stroke-width="{width}"{dashes}/>'


def text(x, y, words, size=12, weight="normal", anchor="start", color=INK, turn=None):
    turned = f' transform="{turn}"' if turn else ""
    font = f'font-size="{size}" font-weight="{weight}" text-anchor="{anchor}" fill="{color}"'
    return f'<text x="{x:.1f}" y="{y:.1f}" {font}{turned}>{escape(words)}</text>'
