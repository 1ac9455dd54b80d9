"""What a notebook shows of an answer."""
from __future__ import annotations

from html import escape
from typing import TYPE_CHECKING

if TYPE_CHECKING:
    from .answer import Answer


def html_of(answer: Answer) -> str:
    """Returns the summary of an answer and a table of its groups, as HTML."""
    told = "<br>".join(escape(line) for line in answer.summary())
    name_of = {county.label: county.name for county in answer.problem.counties}
    numbered = [(str(number), one) for number, one in enumerate(answer.groups, 1)]
    numbered += [(f"W{number}", one) for number, one in enumerate(answer.problem.withdrawn, 1)]
    lines = []
    for number, group in numbered:
        names = escape(", ".join(name_of[label] for label in group.counties))
        cells = (number, str(group.seats), f"{group.people:,}", names)
        lines.append("<tr>" + "".join(f"<td>{cell}</td>" for cell in cells) + "</tr>")
    head = "<tr><th>group</th><th>seats</th><th>people</th><th>counties</th></tr>"
    table = f"<table>{head}{''.join(lines)}</table>" if lines else ""
    notes = "".join(f"<p>{escape(message)}</p>" for message in answer.messages)
    return f"<p>{told}</p>{table}{notes}"
