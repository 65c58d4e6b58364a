"""The report as one HTML file, light and dark."""
from html import escape

import faults
import story
import table
import verdict

STYLE = """
:root { color-scheme: light dark; --text: #1c1c1c; --back: #fdfdfc; --soft: #63635e; --same: #d8ecd5; --same-text: #4f7a49;
  --differs: #c62828; --late: #e8a317; --none: #e4e4e0; --box: #f3f3f0; }
@media (prefers-color-scheme: dark) { :root { --text: #e6e6e2; --back: #181816; --soft: #a0a09a; --same: #24422a;
  --same-text: #8fc598; --differs: #c94040; --late: #d89a1d; --none: #3a3a36; --box: #232320; } }
body { font: 15px/1.5 system-ui, sans-serif; color: var(--text); background: var(--back); max-width: 76em;
  margin: 2em auto; padding: 0 1em; }
h1 { font-size: 1.5em; } h2 { font-size: 1.15em; margin-top: 2em; } h3 { font-size: 1em; margin: 0 0 .3em; }
h3 span { font-weight: normal; color: var(--soft); }
code, pre, table { font-family: ui-monospace, monospace; font-size: 13px; }
pre { background: var(--box); padding: .6em .8em; overflow-x: auto; white-space: pre-wrap; }
table { border-collapse: separate; border-spacing: 2px; } .wide { overflow-x: auto; }
th { font-weight: normal; text-align: left; padding: 1px 3px; } thead th { text-align: center; color: var(--soft); }
.cells td, .cells thead tr + tr th { min-width: 2.2em; } .cells .first { border-left: 8px solid var(--back); }
td, .sign { height: 1.5em; line-height: 1.5em; text-align: center; }
.sign { display: inline-block; width: 1.6em; font-family: ui-monospace, monospace; font-weight: bold; }
.same { background: var(--same); color: var(--same-text); } .none { background: var(--none); color: var(--soft); }
.differs { background: var(--differs); color: #fff; } .late { background: var(--late); color: #000; }
td a { color: inherit; text-decoration: none; display: block; font-weight: bold; }
.legend span + span { margin-left: .4em; } .legend { line-height: 2; }
.story { border-left: 3px solid var(--differs); padding-left: 1em; margin: 1.6em 0; } .story.late { background: none;
  color: inherit; border-color: var(--late); }
.advice { background: var(--box); padding: .6em 1em; margin: .5em 0; } .soft { color: var(--soft); }
ul { margin: .3em 0; } details { margin: .4em 0; } dt { float: left; clear: left; width: 9em; font-family: ui-monospace,
  monospace; font-size: 13px; } dd { margin-left: 10em; }
.events td { text-align: left; height: auto; padding: 0 .7em 0 0; vertical-align: top; } .events td:first-child {
  white-space: nowrap; text-align: right; }
"""
KINDS = {verdict.SAME: "same", verdict.DIFFERS: "differs", verdict.UNFINISHED: "late", verdict.OURS: "differs",
    verdict.MISSED: "none"}
PROMISES = {"exactly": "each record exactly once", "at-least": "each record at least once",
    "at-most": "each record at most once"}
OF_CELLS = ("Each sign is a run, in which this fault hit this request of the program's first start. A blank has no run: "
    "the fault doesn't fit the request, or wasn't chosen.")
OF_PAIRS = "Each sign is a run with two faults. Requests of the second are counted from the first fault on."
WHEN = {"b": "before", "a": "after", "s": "same", "o": "other"}


def page(report, outcomes):
    """The whole page: counts, advice, the table, and a story of each run that isn't the same."""
    stories = [it for it in outcomes if it.verdict.sign not in (verdict.SAME, verdict.MISSED)]
    parts = ["<!doctype html><html lang=\"en\"><meta charset=\"utf-8\"><title>%s</title>" % escape(headline(report)),
        "<meta name=\"viewport\" content=\"width=device-width\"><style>%s</style>" % STYLE, head(report, outcomes)]
    if stories and report.advice:
        parts.append("<h2>Advice</h2>" + "".join("<div class=\"advice\">%s</div>" % escape(it) for it in report.advice))
    if any(len(it.result.case.points) > 1 for it in outcomes):
        parts.append("<h2>Pairs of faults</h2>" + pairs(outcomes) + legend(outcomes, OF_PAIRS))
    else:
        parts.append("<h2>Requests by faults</h2>" + matrix(outcomes) + legend(outcomes, OF_CELLS) +
            explained(outcomes))
    if stories:
        parts.append("<h2>Stories</h2>" + "".join(one(report, it) for it in stories))
    return "\n".join(parts) + "</html>\n"


def head(report, outcomes):
    count = len(outcomes)
    return ("<h1>%s</h1><pre>%s</pre><p>%s: %s. The program promises to write <b>%s</b>. Undisturbed it writes %d "
        "records. Transactions are those of version 1 of Kafka's protocol.</p><p class=\"soft\">%s</p>" % (
            escape(headline(report)), escape(report.command()), "1 run" if count == 1 else "%d runs" % count,
            escape(report.counts()), PROMISES[report.options.promise], len(report.expected), escape(report.server)))


def headline(report):
    signs = report.signs
    if signs[verdict.OURS]:
        return "A fault of the server: its audit doesn't say yes"
    if signs[verdict.DIFFERS]:
        return "%d of %d runs differ" % (signs[verdict.DIFFERS], sum(signs.values()))
    if signs[verdict.UNFINISHED]:
        return "None differs, and %d of %d runs are not finished or blocked" % (
            signs[verdict.UNFINISHED], sum(signs.values()))
    return "No run differs"


def anchor(outcome):
    """A run's name as an id of HTML, and as a file's name."""
    return outcome.result.case.name.replace("#", "-").replace(":", "-").replace(",", "--")


def cell(outcome, is_first=False):
    """One sign, which is a link if there is a story."""
    more = " first" if is_first else ""
    if outcome is None:
        return "<td class=\"%s\"></td>" % more.strip()
    sign, name = outcome.verdict.sign, escape(outcome.result.case.name)
    inner = sign if sign in (verdict.SAME, verdict.MISSED) else "<a href=\"#%s\">%s</a>" % (anchor(outcome), sign)
    return "<td class=\"%s%s\" title=\"%s: %s\">%s</td>" % (KINDS[sign], more, name, table.SIGNS[sign], inner)


def matrix(outcomes):
    """Requests by faults."""
    found, headings = table.cells(outcomes), table.groups(outcomes)
    columns = [(it, it is own[0]) for own in headings.values() for it in own]
    top = "".join("<th class=\"first\" colspan=\"%d\">%s</th>" % (len(own), group) for group, own in headings.items())
    sub = "".join("<th class=\"%s\" title=\"%s\">%s</th>" % ("first" if is_first else "", escape(it.words),
        WHEN.get(it.short, it.short)) for it, is_first in columns)
    lines = ["<tr><th>%s#%d</th>%s</tr>" % (row + ("".join(
        cell(found.get((row, it.name)), is_first) for it, is_first in columns),)) for row in table.rows(outcomes)]
    return ("<div class=\"wide\"><table class=\"cells\"><thead><tr><th></th>%s</tr><tr><th></th>%s</tr></thead>%s</table>"
        "</div>" % (top, sub, "".join(lines)))


def pairs(outcomes):
    """Pairs of faults, a line each."""
    lines = ["<tr>%s<th>%s</th></tr>" % (cell(it), escape(it.result.case.name)) for it in outcomes]
    return "<div class=\"wide\"><table class=\"cells\">%s</table></div>" % "".join(lines)


def legend(outcomes, words):
    """What the signs mean that are there."""
    there = {it.verdict.sign for it in outcomes}
    signs = "".join("<span class=\"sign %s\">%s</span><span>%s%s</span> " % (KINDS[sign], sign, meaning,
        ", which is no pass" if sign == verdict.MISSED else "") for sign, meaning in table.SIGNS.items() if sign in there)
    return "<p class=\"legend\">%s</p><p class=\"soft\">%s A sign with a story is a link to it.</p>" % (signs, words)


def explained(outcomes):
    """What each fault does."""
    return "<details><summary>What the faults do</summary><dl>%s</dl></details>" % "".join(
        "<dt>%s</dt><dd>%s</dd>" % (it.name, escape(it.words)) for it in table.columns(outcomes))


def listed(words, items, most=20):
    """The values of lost or doubled records."""
    if not items:
        return ""
    shown = ", ".join("<code>%s</code>" % escape(verdict.text(it[-1])) for it in items[:most])
    return "<p>%s: %s%s</p>" % (words, shown, " and %d more" % (len(items) - most) if len(items) > most else "")


def one(report, outcome):
    """The story of a run."""
    result, found = outcome.result, outcome.verdict
    words = "; then ".join(faults.BY_NAME[it.fault].words for it in result.case.points)
    items = "".join("<li>%s</li>" % escape(it) for it in story.short(result, found))
    events = "".join("<tr><td>%.1f s</td><td>%s</td><td>%s</td></tr>" % (at, escape(who), escape(what))
        for at, who, what in story.long(result))
    records = listed("Lost", found.lost) + listed("Too often", found.doubled)
    last = "<p>The program's last words:</p><pre>%s</pre>" % escape("\n".join(result.last_words)) \
        if result.last_words else ""
    folder = "<p>Kept: <code>%s</code></p>" % escape(outcome.folder) if report.options.keep else ""
    return ("<div class=\"story%s\" id=\"%s\"><h3>%s <span>%s</span></h3>%s<ul>%s</ul>%s<details><summary>All requests "
        "that matter, in order</summary><table class=\"events\">%s</table></details>%s<p>This run again, with its folder "
        "and page:</p><pre>%s</pre></div>" % (
            " late" if found.sign == verdict.UNFINISHED else "", anchor(outcome), escape(result.case.name), escape(words),
            records or "<p>%s</p>" % escape(found.words), items, last, events, folder, escape(report.again(outcome))))
