"""Charts as SVG text, with two decimals, so that the same numbers give the same file on every machine. tools/pictures draws the guide's
pictures with it, and python/spectrum.py a spectrum."""
from html import escape

INK, GREY, PALE = "#222222", "#777777", "#DDDDDD"
CORNERS = {"square": [(-1, -1), (1, -1), (1, 1), (-1, 1)], "triangle": [(0, -1.2), (1.1, 0.9), (-1.1, 0.9)],
           "diamond": [(0, -1.4), (1.2, 0), (0, 1.4), (-1.2, 0)], "circle": []}
BOLD = ' font-weight="bold"'

def num(value):
    return f"{round(value, 2) + 0.0:g}"

def ticks(first, last, step):  # values with their labels
    values = [round(first + step * i, 9) for i in range(round((last - first) / step) + 1)]
    return [(v, f"{v + 0.0:g}".replace("-", "\u2212")) for v in values]

class Style:  # how a curve looks: its name in legends, colour, dashes (None: solid) and the shape of its marks
    def __init__(self, name, colour, dash=None, shape="circle", width=1.6):
        self.name, self.colour, self.corners = name, colour, CORNERS[shape]
        self.stroke = f'fill="none" stroke="{colour}" stroke-width="{num(width)}"' + (f' stroke-dasharray="{dash}"' if dash else "")

class Page:
    def __init__(self, width, height, title):
        size = f'width="{width}" height="{height}"'
        self.parts = [f'<svg xmlns="http://www.w3.org/2000/svg" viewBox="0 0 {width} {height}" {size} font-family="sans-serif" '
                      f'font-size="12" role="img">', f"<title>{escape(title)}</title>", f'<rect {size} fill="#FFFFFF"/>']
    def svg(self):
        return "\n".join(self.parts + ["</svg>", ""])
    def text(self, x, y, words, anchor="start", more=""):
        self.parts.append(f'<text x="{num(x)}" y="{num(y)}" text-anchor="{anchor}" fill="{INK}"{more}>{escape(words)}</text>')
    def path(self, points, style, more=""):
        self.parts.append(f'<path d="M{"L".join(f"{num(x)} {num(y)}" for x, y in points)}" {style.stroke}{more}/>')
    def box(self, x, y, width, height, colour):
        self.parts.append(f'<rect x="{num(x)}" y="{num(y)}" width="{num(width)}" height="{num(height)}" fill="{colour}" opacity="0.6"/>')
    def line(self, x1, y1, x2, y2, colour, width=1.0, dash=None):
        self.path([(x1, y1), (x2, y2)], Style("", colour, dash, width=width))
    def mark(self, x, y, style, size=3.2, hollow=False):
        corners = "L".join(f"{num(x + size * a)} {num(y + size * b)}" for a, b in style.corners)
        shape = f'path d="M{corners}Z"' if corners else f'circle cx="{num(x)}" cy="{num(y)}" r="{num(size)}"'
        fill = "#FFFFFF" if hollow else style.colour
        self.parts.append(f'<{shape} fill="{fill}" stroke="{style.colour}" stroke-width="1.2"/>')
    def legend(self, x, y, styles, spacing=0, mark=False, hollow=False):  # names side by side, each after a piece of its line or its mark
        for style in styles:
            if mark:
                self.mark(x + 28, y - 4, style, hollow=hollow)
            else:
                self.path([(x, y - 4), (x + 34, y - 4)], style)
            self.text(x + 40, y, style.name)
            x += spacing

class Chart:  # a rectangle of a page; xs and ys are the limits of its axes; of the ticks the first, the last and the step are given
    def __init__(self, page, box, xs, ys, xticks, yticks, xlabel, ylabel, away=54):  # away: of the label of y from the rectangle
        self.page, self.box, self.xs, self.ys = page, box, xs, ys
        left, top, width, height = box
        bottom, right, middle = top + height, left + width, top + height / 2
        rectangle = f'<rect x="{left}" y="{top}" width="{width}" height="{height}" fill="none" stroke="{INK}"/>'
        page.parts.append(f'<clipPath id="at{left}-{top}">{rectangle}</clipPath>')
        for value, label in ticks(*xticks):
            x = self.at(value, 0)[0]
            page.line(x, top, x, bottom, PALE, 0.6)
            page.text(x, bottom + 16, label, "middle")
        for value, label in ticks(*yticks):
            y = self.at(0, value)[1]
            page.line(left, y, right, y, PALE if value else GREY, 0.6)
            page.text(left - 6, y + 4, label, "end")
        page.parts.append(rectangle)
        page.text((left + right) / 2, bottom + 34, xlabel, "middle")
        page.text(left - away, middle, ylabel, "middle", f' transform="rotate(-90 {num(left - away)} {num(middle)})"')
    def at(self, x, y):
        (left, top, width, height), (x0, x1), (y0, y1) = self.box, self.xs, self.ys
        return left + (x - x0) / (x1 - x0) * width, top + (y1 - y) / (y1 - y0) * height
    def band(self, first, last, colour):  # a shade from one x to another, over the whole height
        (x1, _), (x2, _) = self.at(first, 0), self.at(last, 0)
        self.page.box(x1, self.box[1], x2 - x1, self.box[3], colour)
    def curve(self, points, style):  # a line through points, cut at the edges of the chart
        self.page.path([self.at(*point) for point in points], style, ' clip-path="url(#at{}-{})"'.format(*self.box))
    def marks(self, points, style, size=3.2, hollow=False):
        for point in points:
            self.page.mark(*self.at(*point), style, size, hollow)
    def specks(self, points, colour):  # many small dots in one element, to half a unit, each place once
        places = dict.fromkeys(tuple(round(2 * z) / 2 for z in self.at(*point)) for point in points)
        dots = "".join(f"M{num(x)} {num(y)}h0" for x, y in places)
        self.page.parts.append(f'<path d="{dots}" stroke="{colour}" stroke-width="1.8" stroke-linecap="round"/>')
