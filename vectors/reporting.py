"""Tables by flag of what decoders answered, as text, as Markdown and as a page with plots."""
from __future__ import annotations

import html
import json
from typing import Any, Dict, List, NamedTuple, Optional, Tuple

from asking import plain
from judging import KINDS, Verdict, number

HEADS = {
    "passed": "passed",
    "wrong": "wrong",
    "none": "none",
    "policy": "by policy",
    "unsupported": "not supported",
    "lost": "lost",
}
FAILING = ("wrong", "none", "lost")


class Row(NamedTuple):
    """A case, what was answered, and what that is worth."""

    case: Dict[str, Any]
    given: Optional[Dict[str, Any]]
    verdict: Verdict


class Outcome:
    """What one adapter came to."""

    def __init__(self, name: str) -> None:
        self.name, self.version = name, ""
        self.remarks: List[str] = []
        self.rows: List[Row] = []

    def add(self, case: Dict[str, Any], given: Optional[Dict[str, Any]], verdict: Verdict) -> None:
        """One case more."""
        self.rows.append(Row(case, given, verdict))

    def failures(self) -> List[Row]:
        """What is wrong, without an answer or lost."""
        return [row for row in self.rows if row.verdict.kind in FAILING]


def metres_text(metres: float) -> str:
    """A distance with a unit, in two or three digits."""
    if metres < 0.05:
        return "0 m"
    if metres < 1000:
        return f"{metres:.1f} m" if metres < 10 else f"{metres:.0f} m"
    return f"{metres / 1000:.3g} km" if metres < 999_000 else f"{metres / 1000:.0f} km"


def groups(rows: List[Row]) -> Dict[str, List[Row]]:
    """The rows of each class of cases, then of each flag, then all."""
    found: Dict[str, List[Row]] = {}
    for row in rows:
        found.setdefault(row.case["op"], []).append(row)
    for row in sorted(rows, key=lambda row: min(row.case["flags"])):
        for flag in row.case["flags"]:
            found.setdefault(flag, []).append(row)
    flags = {name: found[name] for name in sorted(found) if name[0].isupper()}
    return {**{name: found[name] for name in found if not name[0].isupper()}, **flags, "all": rows}


def count(rows: List[Row], kind: str) -> int:
    """How many rows are of a kind."""
    return sum(row.verdict.kind == kind for row in rows)


def far(rows: List[Row]) -> str:
    """By how many metres wrong places are off, from the least to the most, and how many are on no Earth."""
    wrong = [row for row in rows if row.verdict.kind == "wrong"]
    metres = sorted(row.verdict.metres for row in wrong if row.verdict.metres is not None)
    beyond = [row for row in wrong if row.given and off_earth(row)]
    parts = []
    if metres:
        ends = list(dict.fromkeys(metres_text(end) for end in (metres[0], metres[-1])))
        parts.append("by " + " to ".join(ends))
    if beyond:
        parts.append(f"{len(beyond)} beyond a pole")
    return ", ".join(parts)


def off_earth(row: Row) -> bool:
    """A latitude beyond 90 degrees is answered."""
    try:
        return abs(number((row.given or {}).get("lat"))) > 90
    except (ValueError, ZeroDivisionError):
        return False


def cells(rows: List[Row]) -> List[str]:
    """The cells of a row of the table."""
    return [str(len(rows)), *(str(count(rows, kind) or ".") for kind in KINDS), far(rows)]


TITLES = ["Cases", "all", *(HEADS[kind] for kind in KINDS), "wrong places"]


def table(outcome: Outcome) -> List[List[str]]:
    """The table of one adapter."""
    return [[name, *cells(rows)] for name, rows in groups(outcome.rows).items()]


def aligned(rows: List[List[str]]) -> str:
    """Columns side by side, the first to the left and numbers to the right."""
    widths = [max(len(row[column]) for row in rows) for column in range(len(rows[0]))]
    last = len(widths) - 1
    return "\n".join(
        "  ".join(
            cell.ljust(widths[k]) if k in (0, last) else cell.rjust(widths[k]) for k, cell in enumerate(row)
        ).rstrip()
        for row in rows
    )


def place_text(answer: Optional[Dict[str, Any]]) -> str:
    """An answer in one line."""
    if answer is None:
        return "no line"
    decimal = answer.get("decimal")
    if isinstance(decimal, list) and len(decimal) == 2:
        return plain(f"{decimal[0]} {decimal[1]}", 100)
    if "lat" in answer and "lon" in answer and "ca" not in answer:
        return plain(f"{answer['lat']} {answer['lon']}", 100)
    shown = json.dumps({key: value for key, value in answer.items() if key != "id"})
    return shown if len(shown) <= 100 else shown[:97] + ".."


def example(row: Row) -> str:
    """A failing case in one line."""
    off = f", off by {metres_text(row.verdict.metres)}" if row.verdict.metres is not None else ""
    return f"{row.case['id']}: answered {place_text(row.given)}, right is {place_text(row.case['answer'])}{off}"


def examples(outcome: Outcome, most: int) -> List[str]:
    """The first failing cases of each flag, each case once."""
    found: Dict[str, Row] = {}
    for name, rows in groups(outcome.rows).items():
        if name[0].isupper():
            failing = [row for row in rows if row.verdict.kind in FAILING][:most]
            found.update({row.case["id"]: row for row in failing})
    return [example(row) for row in found.values()]


def policies(outcome: Outcome) -> Dict[str, int]:
    """How many cases are answered by each other policy."""
    counts: Dict[str, int] = {}
    for row in outcome.rows:
        if row.verdict.policy:
            counts[row.verdict.policy] = counts.get(row.verdict.policy, 0) + 1
    return dict(sorted(counts.items()))


def text(outcomes: List[Outcome], most: int) -> str:
    """The table of each adapter, with failing cases below it."""
    parts = []
    for outcome in outcomes:
        part = f"{outcome.name} {outcome.version}".strip() + f"\n\n{aligned([TITLES, *table(outcome)])}"
        named = policies(outcome)
        if named:
            part += "\n\nby policy: " + ", ".join(f"{name} {times}" for name, times in named.items())
        shown = examples(outcome, most) if most > 0 else []
        if shown:
            part += "\n\nfailing cases, `vectors/run --show ID` prints one whole:\n  " + "\n  ".join(shown)
        parts.append(part)
    return "\n\n".join(parts)


def brief(rows: List[Row]) -> str:
    """All of it in one cell. `all` is where all cases pass."""
    tried = [row for row in rows if row.verdict.kind != "unsupported"]
    if not tried:
        return "not supported"
    rest = f"; {len(rows) - len(tried)} not supported" if len(tried) < len(rows) else ""
    if count(tried, "passed") == len(tried):
        return "all" + rest if not rest else f"{len(tried)} passed{rest}"
    parts = [f"{count(tried, kind)} {HEADS[kind]}" for kind in KINDS if count(tried, kind)]
    distance = far(tried)
    return "; ".join(parts).replace(" wrong", f" wrong, {distance}" if distance else " wrong") + rest


def markdown(outcomes: List[Outcome]) -> str:
    """One table: a row for each class and each flag, a column for each adapter."""
    titles = ["Cases", "all", *(f"{outcome.name} {outcome.version}".strip() for outcome in outcomes)]
    lines = ["| " + " | ".join(titles) + " |", "|---" * len(titles) + "|"]
    named = [groups(outcome.rows) for outcome in outcomes]
    for name, rows in named[0].items():
        lines.append("| " + " | ".join([name, str(len(rows)), *(brief(group[name]) for group in named)]) + " |")
    for outcome in outcomes:
        found = policies(outcome)
        if found:
            lines += [
                "",
                f"{outcome.name}, by policy: "
                + ", ".join(f"{policy} {times}" for policy, times in found.items())
                + ".",
            ]
        if outcome.remarks:
            lines += ["", f"{outcome.name}, in trouble: " + "; ".join(outcome.remarks) + "."]
    return "\n".join(lines)


# ---- the page


def where(case: Dict[str, Any]) -> Optional[Tuple[float, float]]:
    """Where on Earth a case lies, as far as it says."""
    for given in (case["answer"], case["input"], case["input"].get("reference"), case["input"].get("site")):
        if given and "lat" in given and "lon" in given and case["op"] not in ("fields",):
            return float(number(given["lat"])), float(number(given["lon"]))
    return None


COLOURS = {"passed": "#9aa5b1", "policy": "#d6a400", "none": "#2563eb", "wrong": "#dc2626", "lost": "#7c3aed"}


def plot(outcome: Outcome) -> str:
    """A map without coasts: a point for each case that has a place, failures last."""
    lines = "".join(f'<path d="M{lon} -90V90" />' for lon in range(-180, 181, 30))
    lines += "".join(f'<path d="M-180 {-lat}H180" />' for lat in (-90, -87, -60, -30, 0, 30, 60, 87, 90))
    dots = {}
    order = list(COLOURS)
    for row in sorted(outcome.rows, key=lambda row: order.index(row.verdict.kind) if row.verdict.kind in order else -1):
        place = where(row.case)
        if place and row.verdict.kind in COLOURS:
            dots[(round(place[1], 1), round(place[0], 1), row.verdict.kind)] = row.case["id"]
    points = "".join(
        f'<circle cx="{lon}" cy="{-lat}" r="{0.7 if kind == "passed" else 1.6}" fill="{COLOURS[kind]}">'
        f"<title>{html.escape(name)}</title></circle>"
        for (lon, lat, kind), name in dots.items()
    )
    key = " ".join(f'<span style="color:{colour}">&#9679;</span> {HEADS[kind]}' for kind, colour in COLOURS.items())
    return (
        f'<figure><svg viewBox="-182 -92 364 184" role="img" aria-label="where on Earth the cases lie">'
        f'<g stroke="#ccd3da" stroke-width="0.3" fill="none">{lines}</g>{points}</svg>'
        f"<figcaption>{key}</figcaption></figure>"
    )


STYLE = """
body { font: 15px/1.5 system-ui, sans-serif; margin: 2rem auto; max-width: 70rem; padding: 0 1rem; color: #1f2933 }
table { border-collapse: collapse; font-variant-numeric: tabular-nums }
td, th { padding: .15rem .6rem; text-align: right }
td:first-child, th:first-child, td:last-child { text-align: left } tr:nth-child(even) { background: #f4f6f8 }
tr.bad td:first-child { color: #b91c1c; font-weight: 600 }
svg { width: 100%; border: 1px solid #ccd3da }
code { font-size: 90% }"""


def page_of(outcome: Outcome) -> str:
    """The part of the page of one adapter."""
    rows = []
    for (name, members), line in zip(groups(outcome.rows).items(), table(outcome)):
        bad = any(row.verdict.kind in FAILING for row in members)
        rows.append(
            f'<tr{" class=bad" if bad else ""}>' + "".join(f"<td>{html.escape(cell)}</td>" for cell in line) + "</tr>"
        )
    head = "".join(f"<th>{html.escape(title)}</th>" for title in TITLES)
    shown = "".join(f"<li><code>{html.escape(line)}</code></li>" for line in examples(outcome, 3))
    remarks = "".join(f"<p>{html.escape(remark)}</p>" for remark in outcome.remarks)
    return (
        f"<h2>{html.escape(outcome.name)} {html.escape(outcome.version)}</h2>{remarks}{plot(outcome)}"
        f"<table><thead><tr>{head}</tr></thead><tbody>{''.join(rows)}</tbody></table>"
        + (f"<h3>Failing cases</h3><ul>{shown}</ul>" if shown else "<p>No case fails.</p>")
    )


def page(outcomes: List[Outcome]) -> str:
    """A page that stands alone."""
    parts = "".join(page_of(outcome) for outcome in outcomes)
    return (
        '<!doctype html><html lang="en"><meta charset="utf-8"><title>ADS-B position vectors</title>'
        f"<style>{STYLE}</style>"
        f"<h1>ADS-B position vectors</h1>{parts}</html>\n"
    )
