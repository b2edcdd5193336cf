"""Reports: lines for the terminal, JSON, and a page of HTML with the exchange of each failure."""

from __future__ import annotations

import html
import json
from collections import Counter
from pathlib import Path
from typing import Any

from rolgunai.conformance.play import FAILED, Result

Json = Any
STYLE = "body{font:14px sans-serif;margin:2em;max-width:75em}\
td,th{text-align:left;padding:.2em .8em;vertical-align:top}\
tr{border-top:1px solid #ddd}pre{background:#f4f4f4;padding:.6em;white-space:pre-wrap;overflow-wrap:anywhere}\
.failed{color:#b00}.passed{color:#070}.skipped,.choice{color:#666}"


def line(result: Result) -> str:
    """A line for each scenario, and one more for each reason."""
    scenario = result.scenario
    head = f"{result.outcome:8} {scenario.group}/{scenario.name}: {scenario.title}"
    return "\n".join([head, *(f"         {reason}" for reason in result.reasons)])


def totals(results: list[Result]) -> str:
    counts = Counter(result.outcome for result in results)
    return ", ".join(f"{counts[outcome]} {outcome}" for outcome in ("passed", "choice", "failed", "skipped"))


def about(info: Json) -> str:
    """A kernel's own words on what it is."""
    language = info.get("language_info") or {}
    return f"{info.get('implementation')} {info.get('implementation_version')}, {language.get('name')} " \
        f"{language.get('version')}, protocol {info.get('protocol_version')}"  # fmt: skip


def as_json(kernel: str, info: Json, results: list[Result]) -> str:
    rows = [
        {
            "name": result.scenario.name, "group": result.scenario.group, "title": result.scenario.title,
            "source": result.scenario.source, "holds": result.scenario.holds, "outcome": result.outcome,
            "reasons": result.reasons, "exchange": result.exchange, "seconds": round(result.seconds, 3),
        }
        for result in results
    ]  # fmt: skip
    return json.dumps({"kernel": kernel, "about": about(info), "scenarios": rows}, indent=1, ensure_ascii=False)


def as_html(kernel: str, info: Json, results: list[Result]) -> str:
    escape = html.escape
    rows, failures = [], []
    for result in results:
        scenario, name = result.scenario, escape(result.scenario.name)
        link = f'<a href="#{name}">{name}</a>' if result.outcome == FAILED else name
        why = "<br>".join(map(escape, result.reasons))
        rows.append(f'<tr><td class="{result.outcome}">{result.outcome}<td>{escape(scenario.group)}<td>{link}'
                    f"<td>{escape(scenario.title)}<td>{why}")  # fmt: skip
        if result.outcome == FAILED:
            exchange = escape("\n".join(result.exchange))
            failures.append(f'<h2 id="{name}">{name}: {escape(scenario.title)}</h2><p>{escape(scenario.holds)} '
                            f"<i>({escape(scenario.source)})</i><p>{why}<pre>{exchange}</pre>")  # fmt: skip
    title = f"The comms of {escape(kernel)}"
    return f'<!doctype html><html lang="en"><meta charset="utf-8"><title>{title}</title><style>{STYLE}</style>' \
        f"<h1>{title}</h1><p>{escape(about(info))}<p>{totals(results)}<table>{''.join(rows)}</table>" \
        f"{''.join(failures)}</html>\n"  # fmt: skip


def write(path: Path, kernel: str, info: Json, results: list[Result]) -> None:
    """Writes the report, as a page where the file's name ends in .html, and as JSON where it doesn't."""
    make = as_html if path.suffix == ".html" else as_json
    path.write_text(make(kernel, info, results), encoding="utf-8", errors="backslashreplace")
