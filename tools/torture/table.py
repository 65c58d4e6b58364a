"""The table of requests by faults: which rows and columns it has, and its text on a terminal."""
import collections

import faults
import plan
import verdict

# The signs of cells, in the order in which they are counted.
SIGNS = collections.OrderedDict([
    (verdict.SAME, "same"), (verdict.DIFFERS, "differs"), (verdict.UNFINISHED, "not finished or blocked"),
    (verdict.MISSED, "not reached"), (verdict.OURS, "the server's own fault")])


def columns(outcomes):
    """The faults that were tried, in the order of the table."""
    names = {it.result.case.points[0].fault for it in outcomes}
    return [it for it in faults.ALL if it.name in names]


def groups(outcomes):
    """The columns, by the heading that they share."""
    found = collections.OrderedDict()
    for it in columns(outcomes):
        found.setdefault(it.group, []).append(it)
    return found


def rows(outcomes):
    """The requests that were hit: API and number."""
    return sorted({it.result.case.points[0][:2] for it in outcomes}, key=lambda it: (plan.order(it[0]), it[1]))


def cells(outcomes):
    """The outcomes by row and name of the fault."""
    return {(it.result.case.points[0][:2], it.result.case.points[0].fault): it for it in outcomes}


def text(outcomes):
    """The table's lines: two of headings, one for each request, and what the signs mean."""
    found, headings = cells(outcomes), groups(outcomes)
    side = max(len("%s#%d" % it) for it in rows(outcomes)) + 1

    def width(fault):
        return max(2, len(fault.short) + 1)

    def line(head, of_group, of_fault):
        blocks = [head.ljust(side)]
        for group, own in headings.items():
            inner = "".join(of_fault(it).ljust(width(it)) for it in own).rstrip()
            blocks.append((of_group(group) or inner).ljust(max(len(group), sum(width(it) for it in own) - 1)))
        return " ".join(blocks).rstrip()

    lines = [line("", lambda group: group, lambda it: ""), line("", lambda _: "", lambda it: it.short)]
    for row in rows(outcomes):
        lines.append(line("%s#%d" % row, lambda _: "", lambda it: found[row, it.name].verdict.sign
            if (row, it.name) in found else ""))
    return lines + ["", legend(outcomes)]


def legend(outcomes):
    signs = sorted({it.verdict.sign for it in outcomes}, key=list(SIGNS).index)
    return "  ".join("%s %s" % (it, SIGNS[it]) for it in signs) + \
        "   (b before, a after the server; s same, o other slot)"
