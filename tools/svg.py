"""A drawing as SVG: boxes, lines, texts and a few marks, in black and white."""

from xml.sax.saxutils import escape

SANS = "DejaVu Sans, Verdana, Helvetica, sans-serif"
MONO = "DejaVu Sans Mono, Menlo, Consolas, monospace"
HATCH = ('<defs><pattern id="hatch" width="6" height="6" patternUnits="userSpaceOnUse" patternTransform="rotate(45)">'
         '<rect width="6" height="6" fill="white"/><line x1="0" y1="0" x2="0" y2="6" stroke="#cccccc" stroke-width="2"/>'
         '</pattern></defs>')


class Drawing:
    """What is drawn, in order; later marks cover earlier ones."""

    def __init__(self):
        self.marks = []

    def box(self, x, y, width, height, fill="white", line=1.0, stroke="black", dashed=False, round_=0):
        dash = ' stroke-dasharray="3 2"' if dashed else ""
        edge = f'stroke="{stroke}" stroke-width="{line}"{dash}' if line else 'stroke="none"'
        self.marks.append(f'<rect x="{x:g}" y="{y:g}" width="{width:g}" height="{height:g}" rx="{round_}" '
                          f'fill="{fill}" {edge}/>')

    def line(self, x1, y1, x2, y2, width=1.0, stroke="black"):
        self.marks.append(f'<line x1="{x1:g}" y1="{y1:g}" x2="{x2:g}" y2="{y2:g}" stroke="{stroke}" '
                          f'stroke-width="{width}"/>')

    def shape(self, points, fill="black"):
        path = " ".join(f"{x:g},{y:g}" for x, y in points)
        self.marks.append(f'<polygon points="{path}" fill="{fill}" stroke="black" stroke-width="1"/>')

    def text(self, x, y, text, size=11, bold=False, mono=False, anchor="start", fill="black"):
        weight = ' font-weight="bold"' if bold else ""
        self.marks.append(f'<text x="{x:g}" y="{y:g}" font-family="{MONO if mono else SANS}" font-size="{size}"'
                          f'{weight} text-anchor="{anchor}" fill="{fill}">{escape(text)}</text>')

    # marks that stand on a line of text, whose foot is at y

    def up(self, x, y):
        self.shape([(x, y), (x + 9, y), (x + 4.5, y - 9)])

    def down(self, x, y):
        self.shape([(x, y - 9), (x + 9, y - 9), (x + 4.5, y)])

    def lost(self, x, y):
        self.line(x, y - 9, x + 9, y, 3)
        self.line(x + 9, y - 9, x, y, 3)

    def svg(self, width, height):
        """The whole document, on white."""
        head = (f'<svg xmlns="http://www.w3.org/2000/svg" width="{width:g}" height="{height:g}" '
                f'viewBox="0 0 {width:g} {height:g}">')
        ground = f'<rect width="{width:g}" height="{height:g}" fill="white"/>'
        return "\n".join([head, HATCH, ground, *self.marks, "</svg>"]) + "\n"
