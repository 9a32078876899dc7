"""The dashboard and the alerts as they stand in contrib: their expressions, which figures and
labels these name, and what is wrong with the dashboard's form."""
import json
import os
import re
from collections import namedtuple

TOP = os.path.dirname(os.path.dirname(os.path.dirname(os.path.abspath(__file__))))
DASHBOARD = f"{TOP}/contrib/mailquota-dashboard.json"
RULES = f"{TOP}/contrib/mailquota-rules.yml"
OPERATING = f"{TOP}/docs/OPERATING.md"
# the labels that Prometheus and node_exporter give
GIVEN = {"job", "instance"}
# columns of Grafana's grid, and units of its that are used
COLUMNS, UNITS = 24, {"none", "short", "s", "bytes"}
# what is of no use over time
NOT_SHOWN = {"mailquota_server_last_night_day"}
# what a panel has by its kind
OPTIONS = {
    "stat": {"colorMode", "reduceOptions", "textMode"},
    "timeseries": {"legend", "tooltip"},
    "table": {"showHeader"},
}

# A query of the dashboard: its panel's title, its letter, its text with all instances, its legend.
Query = namedtuple("Query", "panel letter text legend")
# An alert: its name, its expression, for how many seconds it has to hold, and the sections of
# OPERATING that it names.
Alert = namedtuple("Alert", "name text holds sections")
# What is told of a night once one is over, behind `mailquota_server_last_night_`.
OF_NIGHTS = ("time_seconds", "seconds", "answers", "day")


def dashboard():
    with open(DASHBOARD, encoding="utf-8") as file:
        return json.load(file)


def panels():
    """The panels of the dashboard that show something."""
    return [it for it in dashboard()["panels"] if it["type"] != "row"]


def queries():
    """The queries of all panels, as they are with each instance chosen."""
    return [
        Query(
            panel["title"],
            it["refId"],
            re.sub(r"\$(server|host)\b", ".*", it["expr"]),
            it["legendFormat"],
        )
        for panel in panels()
        for it in panel["targets"]
    ]


def seconds(text):
    """The seconds of a time as 10m."""
    return int(text[:-1]) * {"s": 1, "m": 60, "h": 3_600, "d": 86_400}[text[-1]]


def alerts():
    """The alerts, by the few forms of YAML in which they stand; promtool checks that it is one."""
    with open(RULES, encoding="utf-8") as file:
        blocks = re.split(r"^      - alert: ", file.read(), flags=re.MULTILINE)[1:]
    return [alert_of(re.sub(r"^ *#.*\n", "", it, flags=re.MULTILINE)) for it in blocks]


def alert_of(block):
    def value(key, indent):
        """The text of a key, which stands on its line, or folded below it."""
        folded = rf">-\n((?: {{{indent + 2}}}.*\n)+)"
        found = re.search(rf"^ {{{indent}}}{key}: (?:{folded}|(.*)\n)", block, re.M)
        if not found:
            return ""
        return " ".join(found[1].split()) if found[1] else found[2].strip('"')

    sections = value("description", 10).partition("OPERATING.md, ")[2]
    return Alert(
        block.partition("\n")[0],
        value("expr", 8),
        seconds(value("for", 8) or "0s"),
        re.findall(r'"([^"]+)"', sections),
    )


SELECTOR = re.compile(r"\b(mailquota_\w+)(?:\{([^}]*)\})?")
MATCHER = re.compile(r'(\w+)(=~|!=|!~|=)"([^"]*)"')


def figures_of(text):
    """Of a text of figures each name with its labels, and of each label its values."""
    found = {}
    for name, labels in re.findall(r"^(mailquota_\w+)(?:\{(.*)\})? \S+$", text, re.MULTILINE):
        its = found.setdefault(name, {})
        for label, value in re.findall(r'(\w+)="((?:\\.|[^"\\])*)"', labels):
            its.setdefault(label, set()).add(value)
    return found


def unknown_in(expression, figures):
    """What an expression names that isn't among these figures: a figure, a label of one, or a
    label's value."""
    wrong = []
    for name, matchers in SELECTOR.findall(expression):
        if name not in figures:
            wrong.append(f"there is no figure {name}")
            continue
        for label, sign, value in MATCHER.findall(matchers):
            if label in GIVEN:
                continue
            known = figures[name].get(label)
            if known is None:
                wrong.append(f"{name} has no label {label}")
                continue
            values = value.split("|") if sign in ("=~", "!~") else [value]
            wrong += [f"{name} has no {label} {it}" for it in values if it not in known]
    labels = GIVEN.union(*figures.values()) | {"le"}
    grouped = re.findall(r"\b(?:by|without|on|group_right|group_left) \(([^)]*)\)", expression)
    wrong += [
        f"no figure has a label {it}"
        for text in grouped
        for it in re.findall(r"\w+", text)
        if it not in labels
    ]
    return wrong


def unshown(figures):
    """Which of these figures neither an alert nor the dashboard shows."""
    shown = "\n".join(it.text for it in [*alerts(), *queries()])
    names = {re.sub(r"_(bucket|sum|count)$", "", it) for it in figures}
    return sorted(it for it in names - NOT_SHOWN if not re.search(rf"\b{it}(_bucket)?\b", shown))


def wrong_form(board):
    """What is wrong with a dashboard by what Grafana wants of one."""
    wrong = [
        f"it has no {it}"
        for it in ("title", "uid", "schemaVersion", "time", "templating", "annotations", "panels")
        if it not in board
    ]
    names = {it["name"]: it for it in board["templating"]["list"]}
    wrong += [] if "datasource" in names else ["it has no variable of a datasource"]
    numbers = [it["id"] for it in board["panels"]]
    wrong += [f"two panels have the number {it}" for it in {*numbers} if numbers.count(it) > 1]
    taken = {}
    for panel in board["panels"]:
        wrong += [f"{panel['title']}: {it}" for it in wrong_panel(panel, names)]
        at = panel["gridPos"]
        rows = range(at["y"], at["y"] + at["h"])
        for place in ((x, y) for x in range(at["x"], at["x"] + at["w"]) for y in rows):
            if place[0] >= COLUMNS:
                wrong.append(f"{panel['title']}: it leaves the grid")
            if place in taken:
                wrong.append(f"{panel['title']}: it stands on {taken[place]}")
            taken[place] = panel["title"]
    return sorted({*wrong})


def wrong_panel(panel, variables):
    """What is wrong with a panel of a dashboard that has these variables."""
    kind = panel["type"]
    if kind == "row":
        is_open = panel.get("panels") == [] and panel.get("collapsed") is False
        return [] if is_open else ["it hides some"]
    if kind not in OPTIONS:
        return [f"nobody knows its kind {kind}"]
    wrong = [f"it has no option {it}" for it in OPTIONS[kind] - {*panel["options"]}]
    wrong += [] if panel.get("description") else ["it isn't described"]
    unit = panel["fieldConfig"]["defaults"].get("unit", "none")
    wrong += [] if unit in UNITS else [f"nobody knows its unit {unit}"]
    letters = [it["refId"] for it in panel["targets"]]
    wrong += [] if letters and len({*letters}) == len(letters) else ["its queries have one letter"]
    for it in [panel, *panel["targets"]]:
        if it["datasource"] != {"type": "prometheus", "uid": "${datasource}"}:
            wrong.append("it asks another datasource")
    named = {it for query in panel["targets"] for it in re.findall(r"\$(\w+)", query["expr"])}
    wrong += [f"there is no variable {it}" for it in named - {*variables}]
    return wrong


def sections():
    """The headings of OPERATING, and what stands at the head of its paragraphs in bold type."""
    with open(OPERATING, encoding="utf-8") as file:
        text = file.read()
    return {*re.findall(r"^## (.*)$", text, re.M), *re.findall(r"^\*\*([^*]+)\*\*", text, re.M)}
