"""What a client library may get wrong: it reads on from nowhere while a committed offset is still open.

An offset that was committed in an open transaction isn't known yet, so OffsetFetch is answered 88, unstable offset
commit, with offset -1. A client has to ask again. Some versions of librdkafka (2.0.2 was seen) take that -1 for no
committed offset if the group takes another partition from them meanwhile, and begin where `auto.offset.reset` says.
"""
UNSTABLE = 88


def sentences(events):
    """A sentence for each partition that a start read while the last answer about its offset was 88."""
    asked, told = {}, {}
    exchanges = [(it.start, it.exchange) for it in events if it.exchange is not None and it.exchange.response is not None]
    for start, it in exchanges:
        if it.name == "OffsetFetch":
            for place, code in answers(it):
                asked.setdefault((start,) + place, []).append((it.arrived_at, code, it))
    for start, it in exchanges:
        if it.name == "Fetch" and it.passed_at is not None:
            for topic in it.fields["topics"]:
                for part in topic["parts"]:
                    place = (start, topic["name"], part["index"])
                    last = last_before(asked.get(place, ()), it.passed_at)
                    if place not in told and last is not None and last[1] == UNSTABLE:
                        told[place] = sentence(start, place, part["offset"], last[2])
    return list(told.values())


def sentence(start, place, offset, asked):
    return ("%s read %s-%d from offset %d though %s for it was answered 88 (unstable offset commit), which says that its "
        "offset isn't known yet: that is a fault of the client library" % (start, place[1], place[2], offset, asked))


def answers(exchange):
    """(topic, partition) and the code of each, unless the whole request was refused."""
    if exchange.response.get("error"):
        return
    for topic in exchange.response["topics"]:
        for part in topic["parts"]:
            yield (topic["name"], part["index"]), part["error"]


def last_before(asked, at):
    return next((it for it in reversed(asked) if it[0] is not None and it[0] < at), None)
