"""Measured results as rows of the table in README.md."""

HEAD = """\
| Program | Forced | Runs | Seconds | Told in | Mended: no order fails | Races | TSan | Helgrind | DRD | Plain |
|---|---|---|---|---|---|---|---|---|---|---|"""

TOOLS = 4  # columns of the other tools


def found_cells(row):
    told = row["told"]
    if row["status"] != 1:
        return ["not found", told["search"]["runs"], told["seconds"], ""]
    named = row["named"] or "not told"
    return [told["found"]["forced"], told["search"]["runs"], "%.2f" % told["seconds"], named + ("" if row["replayed"] else ", not replayed")]


def twin_cell(row):
    twin = row["twin"]
    if row["twin status"] not in (0, 3):
        return "fails"
    search = twin["search"]
    if search["how"] == "all" and not search["left at the limit of steps"]:
        return "all, %s states, %.1f s" % (format(search["states"], ","), twin["seconds"])
    return "up to %s forced, in %.0f s" % (search["all orders up to"], twin["seconds"])


def races_cell(row):
    """The variables that races are told of; * if there are some in the mended twin too."""
    return (", ".join("`%s`" % word if " " not in word else word for word in row["races"]) or "-") + (" *" if row["twin races"] else "")


def tool_cell(host, tool):
    """For example `3 of 3`, `-` for no report in 10 runs; `hangs`; * if the mended twin is reported too."""
    count, hangs, done = host[tool]
    text = "%d of %d" % (count, done) if count else "hangs" if hangs else "-"
    return text + (" *" if host["mended " + tool][0] else "")


def plain_cell(host):
    count, hangs, done = host["plain"]
    return "%d of %d" % (count, done) if count else "-"


def line(cells):
    return "| " + " | ".join(map(str, cells)) + " |"


def row_text(row, tools):
    """tools: the cells of the other tools."""
    return line(["`%s`" % row["name"], *found_cells(row), twin_cell(row), races_cell(row), *tools])


def tool_cells(host):
    return [tool_cell(host, tool) for tool in ("tsan", "helgrind", "drd")] + [plain_cell(host)]


def tool_cells_of(page):
    """Of each program those of a page that has the table."""
    rows = [line.strip("| ").split(" | ") for line in page.splitlines() if line.startswith("| `")]
    return {cells[0].strip("`"): cells[-TOOLS:] for cells in rows if len(cells) == len(HEAD.splitlines()[0].strip("| ").split(" | "))}
