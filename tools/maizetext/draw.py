"""An SVG of every layer side by side, with a legend. The same job and plan give the same text."""

from typing import Iterator, Optional

from maizetext import svg
from maizetext.grid import Vertex
from maizetext.ground import guides, numbers, obstacles, pins, title, tracks
from maizetext.job import Job
from maizetext.legend import legend, legend_height
from maizetext.panel import GAP, LEFT, TOP, Panel
from maizetext.replay import Trace
from maizetext.wiring import metal_lines, short_marks, via_marks
from maizetext.words import job_line, totals_line

LEAST_WIDTH = 580
"""Room for the line of totals."""

STYLE = """
text { font-family: sans-serif; }
.title, .said, .totals { font-size: 12px; fill: #222222; }
.number { font-size: 9px; fill: #888888; }
.page { fill: #ffffff; }
.frame { fill: none; stroke: #cccccc; }
.track { stroke: #d5d8dc; stroke-width: 1; }
.obstacle { fill: #8a8f98; }
.guide { fill-opacity: 0.08; stroke-width: 1; stroke-opacity: 0.7; stroke-dasharray: 4 3; }
.wire { stroke-width: WIRE; stroke-linecap: round; }
.extension { stroke-width: WIRE; stroke-opacity: 0.55; stroke-dasharray: 3 3; }
.via-up { fill: #ffffff; stroke-width: 2.5; }
.pin { stroke-width: 2; }
.pin-net { text-anchor: middle; font-weight: bold; }
.short { stroke: #e00000; stroke-width: 2.5; fill: none; }
"""


def draw(job: Job, trace: Optional[Trace]) -> str:
    """The picture of a job, with the wires of a plan that does not break."""
    panels = [Panel(job.grid, layer) for layer in range(job.grid.layers)]
    width = max(panels[-1].left + panels[-1].width + GAP, LEAST_WIDTH)
    below = TOP + panels[0].height + 40
    height = below + legend_height(job, trace, width - LEFT) + (24 if trace else 6)
    content = [
        svg.element("title", {}, job_line(job)),
        svg.element("style", {}, STYLE.replace("WIRE", svg.number_text(panels[0].cell * 0.22))),
        svg.rect("page", 0, 0, width, height),
        *(svg.group("layer", layer_marks(job, trace, panel), id=f"layer-{panel.layer}") for panel in panels),
        svg.group("legend", legend(job, trace, below, LEFT, width - LEFT)),
    ]
    if trace:
        content.append(svg.text("totals", LEFT, height - 12, totals_line(job, trace)))
    inner = "".join(f"{line}\n" for line in content)
    size = {"width": width, "height": height, "viewBox": f"0 0 {width} {height}"}
    return svg.element("svg", {"xmlns": "http://www.w3.org/2000/svg", **size}, f"\n{inner}") + "\n"


def layer_marks(job: Job, trace: Optional[Trace], panel: Panel) -> Iterator[str]:
    """A layer from the ground up: tracks, guides, obstacles, wires, pins, vias, shorts."""
    yield title(job, panel)
    yield svg.rect("frame", panel.left, TOP, panel.grid.columns * panel.cell, panel.height)
    yield from tracks(panel)
    yield from numbers(panel)
    yield from guides(job, panel)
    yield from obstacles(job, panel)
    if trace:
        yield from metal_lines(trace, panel)
    yield from pins(job, panel, open_pins(trace))
    if trace:
        yield from via_marks(trace, panel, {pin for net in job.nets for pin in net.pins})
        yield from short_marks(trace, panel)


def open_pins(trace: Optional[Trace]) -> set[Vertex]:
    """The pins that a plan leaves open."""
    return {pin for net in trace.nets for pin in net.open_pins} if trace else set()
