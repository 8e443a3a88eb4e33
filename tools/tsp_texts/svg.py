"""Elements of a picture in SVG."""
# How wide a letter of the picture's font is, at the most that is usual.
LETTER = 6.7


def wide(words):
    """About how much room words take."""
    return LETTER * len(words)


def end_of(element, title):
    """The end of an element, which tells more where the pointer rests on it."""
    return f'><title>{printable(title)}</title></{element}>' if title else '/>'


def printable(words):
    """Words as the text of an element; what XML can't have is written with a stroke."""
    if not words.isprintable():
        words = ''.join(sign if sign.isprintable() else ascii(sign)[1:-1] for sign in words)
    return words.replace('&', '&amp;').replace('<', '&lt;').replace('>', '&gt;')


class Drawing:
    """Elements, one after the other. A crowded one has signs that look alike and lie on the same pixels once: the first of them."""

    def __init__(self, is_crowded=False):
        self.out, self.signs = [], set() if is_crowded else None

    def is_there(self, look, *places):
        """Whether such a sign lies on these pixels already."""
        if self.signs is None:
            return False
        sign = look, *map(round, places)
        is_old = sign in self.signs
        self.signs.add(sign)
        return is_old

    def put(self, text):
        self.out.append(text)

    def line(self, x1, y1, x2, y2, stroke, more='', title=None):
        if not self.is_there(f'line {stroke}{more}', x1, y1, x2, y2):
            self.put(f'<line x1="{x1:.1f}" y1="{y1:.1f}" x2="{x2:.1f}" y2="{y2:.1f}" stroke="{stroke}"{more}{end_of("line", title)}')

    def text(self, x, y, words, more=''):
        self.put(f'<text x="{x:.1f}" y="{y:.1f}"{more}>{printable(words)}</text>')

    def path(self, points, more):
        if points:
            self.put(f'<polyline points="{self.joined(points)}" fill="none"{more}/>')

    def polygon(self, points, more, title=None):
        self.put(f'<polygon points="{self.joined(points)}"{more}{end_of("polygon", title)}')

    def joined(self, points):
        """Points as an element has them; in a crowded drawing those that lie on one pixel one behind the other are one."""
        if self.signs is not None:
            pixels = [(round(x), round(y)) for x, y in points]
            points = [point for place, point in enumerate(points) if place in (0, len(points) - 1) or pixels[place] != pixels[place - 1]]
        return ' '.join(f'{x:.1f},{y:.1f}' for x, y in points)

    def rect(self, x, y, width, height, more, title=None):
        if not self.is_there(f'rect{more}', x, y, width, height):
            self.put(f'<rect x="{x:.1f}" y="{y:.1f}" width="{width:.1f}" height="{height:.1f}"{more}{end_of("rect", title)}')

    def circle(self, x, y, radius, more, title=None):
        if not self.is_there(f'circle{more}', x, y):
            self.put(f'<circle cx="{x:.1f}" cy="{y:.1f}" r="{radius}"{more}{end_of("circle", title)}')

    def cross(self, x, y, stroke, title=None):
        """A lying cross."""
        if not self.is_there(f'cross {stroke}', x, y):
            self.put(f'<path d="M{x - 3:.1f} {y - 3:.1f}l6 6m0 -6l-6 6" stroke="{stroke}" fill="none" class="cross"{end_of("path", title)}')

    def triangle(self, x, y, title=None):
        """A small one whose point is down."""
        self.put(f'<path d="M{x:.1f} {y:.1f}l-3 -6h6z" fill="#555"{end_of("path", title)}')

    def triangles(self, places, title):
        """Such ones of one meaning; in a crowded drawing they are one element."""
        if self.signs is None:
            for x, y in places:
                self.triangle(x, y, title)
        elif places:
            pixels = dict.fromkeys((round(x), round(y)) for x, y in places)
            self.put('<path d="' + ''.join(f'M{x} {y}l-3 -6h6z' for x, y in pixels) + f'" fill="#555"{end_of("path", title)}')

    def whole(self, width, height):
        """The picture of all elements."""
        head = f'<svg xmlns="http://www.w3.org/2000/svg" viewBox="0 0 {width} {height}" font-family="sans-serif" font-size="11">'
        return '\n'.join([head, f'<rect width="{width}" height="{height}" fill="white"/>'] + self.out) + '</svg>\n'
