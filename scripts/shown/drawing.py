"""What the pictures of docs/pictures are drawn with: SVG that is legible on light and on dark, and its text."""

import textwrap
from html import escape

# The states of a page have the colours of the page that ./hl view writes.
STYLE = """
  .ground { fill: #ffffff; } .track { fill: #eceff3; } .rule { stroke: #565d69; } .mark { stroke: #1550b0; }
  text { fill: #1b1e24; font: 13px system-ui, "DejaVu Sans", sans-serif; }
  .open { fill: #c9ecc8; } .sealed { fill: #fbe4a0; } .flushed { fill: #c9ddfb; } .closed { fill: #e3d1f6; }
  .free { fill: #ffffff; } .writes { fill: #2e7d39; } .reads { fill: #1550b0; }
  text.soft { fill: #565d69; } text.mark { fill: #1550b0; stroke: none; } .arrow { fill: #565d69; }
  .strong { font-weight: 600; } .small { font-size: 11.5px; } .tiny { font-size: 10.5px; }
  .other { font-style: italic; }
  .step { font-family: ui-monospace, "DejaVu Sans Mono", monospace; font-size: 12.5px; }
  .line { fill: none; stroke-width: 1.5; } .dashed { stroke-dasharray: 4 3; }
  @media (prefers-color-scheme: dark) {
    .ground { fill: #1c1f25; } .track { fill: #30353e; } .rule { stroke: #a6aebb; } .mark { stroke: #86b4ff; }
    text { fill: #e7eaef; }
    .open { fill: #20512b; } .sealed { fill: #5c4a0e; } .flushed { fill: #1f4377; } .closed { fill: #4d3469; }
    .free { fill: #1c1f25; } .writes { fill: #7fd08a; } .reads { fill: #86b4ff; }
    text.soft { fill: #a6aebb; } text.mark { fill: #86b4ff; } .arrow { fill: #a6aebb; }
  }"""


class Drawing:
    """An SVG with a title, in which all lengths are pixels."""

    def __init__(self, width: int, height: int, title: str):
        size = f'viewBox="0 0 {width} {height}" width="{width}" height="{height}"'
        self.head = f'<svg xmlns="http://www.w3.org/2000/svg" {size} role="img" aria-labelledby="title">'
        self.head += f'\n<title id="title">{escape(title)}</title>'
        self.parts = [f'<rect class="ground" width="{width}" height="{height}" rx="10"/>']

    def box(self, x, y, width, height, kind: str, rounded=0):
        self.parts.append(f'<rect class="{kind}" x="{x}" y="{y}" width="{width}" height="{height}" rx="{rounded}"/>')

    def line(self, path: str, kind: str):
        self.parts.append(f'<path class="line {kind}" d="{path}"/>')

    def arrow(self, path: str, x, y, towards: str):
        """A line that ends as an arrow there: down, right or left."""
        self.line(path, "rule")
        one, other = {"down": ((-5, -9), (5, -9)), "right": ((-9, -5), (-9, 5)), "left": ((9, -5), (9, 5))}[towards]
        corners = " ".join(f"{x + across},{y + down}" for across, down in (one, other, (0, 0)))
        self.parts.append(f'<polygon class="arrow" points="{corners}"/>')

    def words(self, x, y, text: str, kind="", anchor="start"):
        attributes = (f' class="{kind}"' if kind else "") + (f' text-anchor="{anchor}"' if anchor != "start" else "")
        self.parts.append(f'<text x="{x}" y="{y}"{attributes}>{escape(text)}</text>')

    def paragraph(self, x, y, text: str, columns: int, kind="", anchor="start") -> int:
        """A text in lines of so many columns at most; where the next line would be."""
        for line in textwrap.wrap(text, columns, break_on_hyphens=False):
            self.words(x, y, line, kind, anchor)
            y += 17
        return y

    def __str__(self) -> str:
        return "\n".join([self.head, f"<style>{STYLE}\n</style>", *self.parts, "</svg>"]) + "\n"
