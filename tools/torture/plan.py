"""Which runs are made: each fault at some requests of each API, and pairs of faults."""
import random

import faults
from run import Case
from watch import Point

# How many of these there are depends on the time that passes, so the last one is another in each run.
TIMED = ("Fetch",) + faults.LOOKED_UP


def numbers(api, count, every):
    """Which of `count` requests are hit: each, or the first, second and last."""
    if api in TIMED:
        return [it for it in (1, 2) if it <= count]
    return list(range(1, count + 1)) if every else sorted({it for it in (1, 2, count) if it <= count})


def name(points):
    return ",".join("%s#%d:%s" % it for it in points)


def single(found, options):
    """A case for each fault at each request; `found` has how many requests of each API there were."""
    cases = []
    for api in sorted(found, key=order):
        if api in faults.LOOKED_UP and not options.all:
            continue
        for number in numbers(api, found[api], options.all):
            for fault in options.faults:
                if api in fault.requests:
                    cases.append(Case("", (Point(api, number, fault.name),), True))
    return cases


def order(api):
    """Sorts APIs: joining a group, fetching, the requests of a transaction, all others by name."""
    known = faults.JOINED + ("Fetch",) + faults.SENT
    return known.index(api) if api in known else len(known), api


def pairs(cases, choice, count):
    """So many pairs of cases, drawn at random."""
    return [Case("", choice.choice(cases).points + choice.choice(cases).points, True) for _ in range(count)]


def plan(found, options):
    """The cases that the options ask for, each with a name such as EndTxn#1:kill-after."""
    if options.only:
        cases = [Case("", tuple(Point(*it) for it in points), True) for points in options.only]
    else:
        cases = single(found, options)
        choice = random.Random(options.seed)
        if options.twice and cases:
            cases = pairs(cases, choice, options.runs or len(cases))
        elif options.runs is not None and options.runs < len(cases):
            kept = set(choice.sample(range(len(cases)), options.runs))
            cases = [it for place, it in enumerate(cases) if place in kept]
    return [it._replace(name=name(it.points)) for it in cases]
