"""Keeps runs apart that share a Kafka: the program asks for `bills`, and the broker is asked for `torture-1a2b-7-bills`.

Topics, groups and transactional ids have such a prefix; opaque bytes, such as a group's assignments, have none.
"""

NAMED, TOPICS = ("group", "txn", "key"), ("topics", "forgotten")


def to_broker(fields, prefix):
    """A request with the prefix before each name."""
    return changed(fields, lambda name: prefix + name) if prefix else fields


def to_program(fields, prefix):
    """A response without the prefix, and without topics of other runs."""
    if not prefix or not fields:
        return fields
    found = dict(fields)
    if isinstance(fields.get("topics"), list):
        found["topics"] = [it for it in fields["topics"] if it["name"].startswith(prefix)]
    return changed(found, lambda name: name[len(prefix):])


def changed(fields, change):
    found = dict(fields)
    for name in NAMED:
        if found.get(name):
            found[name] = change(found[name])
    for name in TOPICS:
        if found.get(name):
            found[name] = [dict(it, name=change(it["name"])) for it in found[name]]
    return found
