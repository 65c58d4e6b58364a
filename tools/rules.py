#!/usr/bin/env python3
"""Writes the tables that a page of a run shows, crates/kx_page/src/rules.rt, from docs/RULES.md.

    tools/rules.py           writes the file
    tools/rules.py --check   says whether the file has what docs/RULES.md has, and a line for each id
                             that kx_page's `Rule` names; status 1 if not

The id of a line is its table's word, a dash and its case, in lower case with dashes.
"""
import html
import os
import re
import sys

TOP = os.path.dirname(os.path.dirname(os.path.realpath(__file__)))
SOURCE = f"{TOP}/docs/RULES.md"
MADE = f"{TOP}/crates/kx_page/src/rules.rt"
NAMED = f"{TOP}/crates/kx_page/src/rule.rt"

# The sections whose tables a page has, with the word that begins the ids of its lines.
SECTIONS = {
    "A batch that arrives": "batch",
    "A marker that arrives": "marker",
    "Asking the coordinator": "park",
    "A client asks for an id and an epoch": "init",
    "A partition asks to be listed": "add",
    "A client ends its transaction": "end",
    "Groups": "group",
}
# Sections without a table, of which a page has the text.
TEXTS = {
    "Markers' replies, expiry, reminders and opening": "settle",
    "Stores and restarts": "restart",
}


def section(text, title):
    found = re.search(rf"^#+ {re.escape(title)}\n(.*?)(?=^#+ |\Z)", text, re.M | re.S)
    return found[1]


def plain(text):
    text = re.sub(r"\[([^\]]*)\]\([^)]*\)", r"\1", text).replace("*", "").replace("`", "")
    return html.escape(text.strip(), quote=False)


def word(text):
    return re.sub(r"[^a-z0-9]+", "-", text.lower()).strip("-")


def lines(text, title):
    """The cells of each line of the section's first table, without its head."""
    rows = re.findall(r"^\|(.*)\|$", section(text, title), re.M)
    cells = [[it.strip() for it in row.split("|")] for row in rows]
    cells = [row for row in cells if not set("".join(row)) <= set("- ")][1:]
    request = ""
    for row in cells:
        # A group's request stands once for all of its lines.
        if title == "Groups":
            request = row[0] or request
            row[0] = request
    return cells


def table(text, title, begin):
    made = [f'<h3>{plain(title)}</h3>', '<table>']
    for row in lines(text, title):
        key = word(f"{begin} {row[0]} {row[1]}" if title == "Groups" else f"{begin} {row[0]}")
        cells = "".join(f"<td>{plain(it)}</td>" for it in row)
        made.append(f'<tr id="{key}">{cells}</tr>')
    return [*made, "</table>"]


def text_of(text, title, begin):
    parts = [it for it in section(text, title).strip().split("\n\n")]
    return [f'<h3 id="{begin}">{plain(title)}</h3>', *[f"<p>{plain(it)}</p>" for it in parts]]


def made():
    with open(SOURCE, encoding="utf-8") as it:
        text = it.read()
    rows = []
    for title, begin in SECTIONS.items():
        rows += table(text, title, begin)
    for title, begin in TEXTS.items():
        rows += text_of(text, title, begin)
    body = "\n".join(rows).replace("\\", "\\\\").replace('"', '\\"')
    return (
        "//! The rules that a page shows. `tools/rules.py` writes this file from docs/RULES.md.\n\n"
        "/// The tables, in HTML.\n"
        f'pub(crate) const RULES: &str = "{body}\n";\n'
    )


def lacking(text):
    """The ids that `Rule` names and this text doesn't have."""
    with open(NAMED, encoding="utf-8") as it:
        named = re.findall(r'Rule\(\s*"([^"]*)"', it.read())
    return [it for it in named if f'id=\\"{it}\\"' not in text]


def check():
    with open(MADE, encoding="utf-8") as it:
        text = it.read()
    if text != made():
        return "not as in docs/RULES.md: run tools/rules.py"
    lost = lacking(text)
    return f"no line has the id {lost[0]}" if lost else ""


def main():
    if "--check" in sys.argv[1:]:
        wrong = check()
        print(f"rules: {wrong or 'as in docs/RULES.md'}")
        return 1 if wrong else 0
    with open(MADE, "w", encoding="utf-8") as it:
        it.write(made())
    return 0


if __name__ == "__main__":
    sys.exit(main())
