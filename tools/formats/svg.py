"""Parts of an SVG picture."""

from xml.sax.saxutils import escape, quoteattr

INK = "#222222"
PALE = "#DDDDDD"
BACK = "#FFFFFF"
SVG = "http://www.w3.org/2000/svg"


def opening(width, height, title):
    """The lines that begin a picture of this size: its title, and a white ground."""
    box = {"width": f"{width:.0f}", "height": f"{height:.0f}", "viewBox": f"0 0 {width:.0f} {height:.0f}"}
    yield start("svg", {"xmlns": SVG, **box, "font-family": "sans-serif", "font-size": "11"})
    yield f"<title>{escape(title)}</title>"
    yield element("rect", {"width": box["width"], "height": box["height"], "fill": BACK})


def start(name, attributes):
    return f"<{name} " + " ".join(f"{key}={quoteattr(str(value))}" for key, value in attributes.items()) + ">"


def element(name, attributes, title=""):
    """An element, with a title that a browser shows where one points at it."""
    inside = f"<title>{escape(title)}</title>" if title else ""
    return f"{start(name, attributes)}{inside}</{name}>"


def text(x, y, said, anchor="start"):
    return f'<text x="{x:.1f}" y="{y:.1f}" fill="{INK}" text-anchor="{anchor}">{escape(said)}</text>'


def line(left, right, y):
    ends = {"x1": left, "x2": right, "y1": y, "y2": y}
    return element("line", {**{key: f"{value:.1f}" for key, value in ends.items()}, "stroke": PALE})
