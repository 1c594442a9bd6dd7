"""A few marks of SVG, enough for the plots here: axes, lines, dots, bars and words."""

from html import escape

INK, PALE = "#222222", "#d9d9d9"
COLOURS = ("#0072b2", "#d55e00", "#009e73", "#8a4f9e")      # told apart by colour-blind readers too


class Picture:
    """A drawing of a fixed size on white."""

    def __init__(self, width, height, title):
        self.width, self.height, self.title = width, height, title
        self.marks = []

    def line(self, x1, y1, x2, y2, colour=INK, width=1.0, dashes=None):
        dash = f' stroke-dasharray="{dashes}"' if dashes else ""
        self.marks.append(f'<line x1="{x1:.1f}" y1="{y1:.1f}" x2="{x2:.1f}" y2="{y2:.1f}" '
                          f'stroke="{colour}" stroke-width="{width}"{dash}/>')

    def path(self, points, colour, width=1.8):
        """A broken line through points."""
        steps = " ".join(f"{x:.1f},{y:.1f}" for x, y in points)
        self.marks.append(f'<polyline points="{steps}" fill="none" stroke="{colour}" '
                          f'stroke-width="{width}" stroke-linejoin="round"/>')

    def dots(self, points, colour, radius=1.1):
        """Dots as one path, which keeps the file small."""
        steps = "".join(f"M{x:.1f} {y:.1f}h0" for x, y in points)
        self.marks.append(f'<path d="{steps}" stroke="{colour}" stroke-width="{2 * radius}" '
                          f'stroke-linecap="round" fill="none"/>')

    def ring(self, x, y, colour, radius=4.5):
        self.marks.append(f'<circle cx="{x:.1f}" cy="{y:.1f}" r="{radius}" fill="none" '
                          f'stroke="{colour}" stroke-width="1.5"/>')

    def bar(self, x, y, width, height, colour):
        self.marks.append(f'<rect x="{x:.1f}" y="{y:.1f}" width="{width:.1f}" height="{height:.1f}" fill="{colour}"/>')

    def words(self, x, y, text, anchor="start", size=12, colour=INK, bold=False, turned=False):
        turn = f' transform="rotate(-90 {x:.1f} {y:.1f})"' if turned else ""
        weight = ' font-weight="bold"' if bold else ""
        self.marks.append(f'<text x="{x:.1f}" y="{y:.1f}" text-anchor="{anchor}" font-size="{size}" '
                          f'fill="{colour}"{weight}{turn}>{escape(text)}</text>')

    def save(self, path):
        """Writes the file."""
        head = (f'<svg xmlns="http://www.w3.org/2000/svg" width="{self.width}" height="{self.height}" '
                f'viewBox="0 0 {self.width} {self.height}" font-family="DejaVu Sans, Verdana, sans-serif" role="img">\n'
                f"<title>{escape(self.title)}</title>\n"
                f'<rect width="{self.width}" height="{self.height}" fill="white"/>\n')
        path.write_text(head + "\n".join(self.marks) + "\n</svg>\n")


class Frame:
    """A rectangle of a picture with two scales, each a function from values to 0..1."""

    def __init__(self, picture, left, top, width, height, x_scale, y_scale):
        self.picture, self.left, self.top, self.width, self.height = picture, left, top, width, height
        self.x_scale, self.y_scale = x_scale, y_scale

    def x(self, value):
        return self.left + self.width * self.x_scale(value)

    def y(self, value):
        return self.top + self.height * (1 - self.y_scale(value))

    def points(self, pairs):
        return [(self.x(x), self.y(y)) for x, y in pairs]

    def grid(self, x_ticks, y_ticks, x_label="", y_label="", x_words=True):
        """Grid lines with their values, and the axes' names."""
        bottom, right = self.top + self.height, self.left + self.width
        for value in x_ticks:
            self.picture.line(self.x(value), self.top, self.x(value), bottom, PALE, 0.8)
            if x_words:
                self.picture.words(self.x(value), bottom + 16, f"{value:,}", "middle", 11)
        for value in y_ticks:
            self.picture.line(self.left, self.y(value), right, self.y(value), PALE, 0.8)
            self.picture.words(self.left - 7, self.y(value) + 4, f"{value:,}", "end", 11)
        self.picture.line(self.left, bottom, right, bottom)
        self.picture.line(self.left, self.top, self.left, bottom)
        if x_label:
            self.picture.words(self.left + self.width / 2, bottom + 36, x_label, "middle", 12)
        if y_label:
            self.picture.words(self.left - 46, self.top + self.height / 2, y_label, "middle", 12, turned=True)
