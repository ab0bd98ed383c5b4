"""SVG elements as text."""

from html import escape
from typing import Iterable, Union

Number = Union[int, float]


def number_text(value: Number) -> str:
    """A number with at most one decimal."""
    return f"{value:.1f}".removesuffix(".0")


def element(tag: str, attributes: dict[str, Union[str, Number]], content: str = "") -> str:
    """An element; its content is markup already. A name's underscore stands for a hyphen."""
    said = "".join(
        f' {name.replace("_", "-")}="{escape(value if isinstance(value, str) else number_text(value))}"'
        for name, value in attributes.items()
    )
    return f"<{tag}{said}>{content}</{tag}>" if content else f"<{tag}{said}/>"


def group(kind: str, content: Iterable[str], **attributes: Union[str, Number]) -> str:
    """Elements together, one a line."""
    inner = "".join(f"{line}\n" for line in content)
    return element("g", {"class": kind, **attributes}, f"\n{inner}")


def line(kind: str, x1: Number, y1: Number, x2: Number, y2: Number, **more: Union[str, Number]) -> str:
    """A line."""
    return element("line", {"class": kind, "x1": x1, "y1": y1, "x2": x2, "y2": y2, **more})


def rect(kind: str, x: Number, y: Number, width: Number, height: Number, **more: Union[str, Number]) -> str:
    """A rectangle."""
    return element("rect", {"class": kind, "x": x, "y": y, "width": width, "height": height, **more})


def circle(kind: str, x: Number, y: Number, r: Number, **more: Union[str, Number]) -> str:
    """A circle."""
    return element("circle", {"class": kind, "cx": x, "cy": y, "r": r, **more})


def text(kind: str, x: Number, y: Number, said: str, **more: Union[str, Number]) -> str:
    """A line of text."""
    return element("text", {"class": kind, "x": x, "y": y, **more}, escape(said))
