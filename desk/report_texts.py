"""A report of delays as a text for readers, as CSV and as JSON."""
import csv
import io
import json

from delay_rows import picoseconds
from files import shown

NAMES = {"wire": ("from", "to"), "path": ("instance", "from", "to")}


def texts(statistics):
    """What is said at one corner, as texts by their titles."""
    counts = {title: str(count) for title, count in statistics.counts().items()}
    return {**counts, **{title: picoseconds(number) for title, number in statistics.times().items()}}


def table(kind, corners):
    """A line for each title, with a column for each corner."""
    columns = [{f"{kind}s": statistics.corner, **texts(statistics)} for statistics in corners]
    widths = [max(map(len, column.values())) + 2 for column in columns]
    for title in columns[0]:
        cells = "".join(column[title].rjust(width) for column, width in zip(columns, widths))
        yield ("" if title == f"{kind}s" else "  ") + title.ljust(10 if title == f"{kind}s" else 8) + cells


def worst_lines(kind, corners):
    for statistics in corners:
        if statistics.worst:
            yield f"worst {kind}s at {statistics.corner}" if len(corners) > 1 else f"worst {kind}s"
        width = max((len(picoseconds(one.number)) for one in statistics.worst), default=0)
        for one in statistics.worst:
            yield f"  {picoseconds(one.number).rjust(width)} {one.edge} {one.row.name()}"


def as_text(report):
    lines = [f"{report.path}: delays in picoseconds"]
    for kind, corners in report.kinds.items():
        lines += ["", *table(kind, corners), *worst_lines(kind, corners)]
    return "".join(line + "\n" for line in lines)


def as_csv(report):
    """One table: a quantity or one of the worst a line."""
    text = io.StringIO()
    writer = csv.writer(text, lineterminator="\n")
    writer.writerow(["kind", "corner", "quantity", "value", "edge", "name"])
    for kind, corners in report.kinds.items():
        for statistics in corners:
            for title, value in texts(statistics).items():
                writer.writerow([kind, statistics.corner, title, value, "", ""])
            for rank, one in enumerate(statistics.worst, 1):
                writer.writerow([kind, statistics.corner, f"worst {rank}", picoseconds(one.number), one.edge, one.row.name()])
    return text.getvalue()


def number(femtoseconds):
    """Picoseconds as a number of JSON, which has the three decimals: a float tells 15 digits."""
    return None if femtoseconds is None else femtoseconds / 1000


def worst_object(kind, one):
    return {**dict(zip(NAMES[kind], map(shown, one.row.names))), "edge": one.edge, "delay": number(one.number)}


def corner_object(kind, statistics):
    times = {title: number(value) for title, value in statistics.times().items()}
    return {**statistics.counts(), **times, "worst": [worst_object(kind, one) for one in statistics.worst]}


def as_json(report):
    kinds = {f"{kind}s": {one.corner: corner_object(kind, one) for one in corners} for kind, corners in report.kinds.items()}
    return json.dumps({"file": report.path, "unit": "ps", "corners": list(report.corners), **kinds}, indent=1) + "\n"


FORMATS = {"text": as_text, "csv": as_csv, "json": as_json}
