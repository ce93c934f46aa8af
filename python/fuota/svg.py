"""Pictures in SVG, without a ground of their own."""

# These can be read on white and on dark ground.
GREY, BLUE, ORANGE, GREEN = "#777777", "#2f81f7", "#d9730d", "#2da44e"


def text(x: object, y: object, words: object, anchor: str = "start") -> str:
    """A text at a place."""
    return f'<text x="{x}" y="{y}" text-anchor="{anchor}">{words}</text>'


def drawn_path(steps: str, colour: str, width: int, rest: str = "") -> str:
    """A line along the steps of a path."""
    return f'<path d="{steps}" fill="none" stroke="{colour}" stroke-width="{width}"{rest}/>'


def picture(width: int, height: int, title: str, parts: list[str]) -> str:
    """The text of a picture, without a ground of its own."""
    head = (f'<svg xmlns="http://www.w3.org/2000/svg" viewBox="0 0 {width} {height}" width="{width}" height="{height}"'
            f' font-family="sans-serif" font-size="12" fill="{GREY}">')
    return "\n".join([head, f"<title>{title}</title>", *parts, "</svg>"]) + "\n"
