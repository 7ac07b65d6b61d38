"""What a search is due to find, by a scan: the pairs of one object, and whether these meet a query. It is written from
docs/reference/search.md alone, and keeps nothing from one object to the next.
"""
import json
import re

from objects import LEVELS
from queries import All, Any, CHARACTER, CHARACTERS, Equal, Every, Group, Like, Not


def pairs_below(path, value):
    """The pairs of a value at the end of a path of keys."""
    if isinstance(value, dict):
        for key, part in value.items():
            yield from pairs_below((*path, key), part)
    elif isinstance(value, list):
        for part in value:
            yield from pairs_below(path, part)
    elif value is not None:
        word = value if isinstance(value, str) else json.dumps(value)
        yield "_".join(path), word
        yield path[-1], word


def pairs_of(kind, tree):
    """The pairs of a field and a value by which an object is found; only those of a `node` are others than its tree says."""
    if kind != "node":
        return set(pairs_below((), tree))
    found = set()
    for key, value in tree.items():
        found.update(pairs_below(() if key in LEVELS else (key,), value))
    for item in tree["run_list"]:
        for field in ("recipe", "role"):
            if item.startswith(field + "[") and item.endswith("]"):
                found.add((field, item[len(field) + 1 : -1]))
    return found


def is_wanted(wanted, value):
    if isinstance(wanted, Equal):
        return value == wanted.text
    if isinstance(wanted, Like):
        form = "".join(".*" if sign is CHARACTERS else "." if sign is CHARACTER else re.escape(sign) for sign in wanted.signs)
        return re.fullmatch(form, value, re.DOTALL) is not None
    value, low, high = (None if text is None else text.encode() for text in (value, wanted.low, wanted.high))
    if wanted.with_ends:
        return (low is None or low <= value) and (high is None or value <= high)
    return (low is None or low < value) and (high is None or value < high)


def meets(query, pairs):
    """The pairs are of an object that the query finds."""
    if isinstance(query, Any):
        return any(meets(part, pairs) for part in query.queries)
    if isinstance(query, All):
        return all(meets(item, pairs) for item in query.items)
    if isinstance(query, Not):
        return not meets(query.item, pairs)
    if isinstance(query, Group):
        return meets(query.query, pairs)
    if isinstance(query, Every):
        return True
    return any(field == query.field and is_wanted(query.wanted, value) for field, value in pairs)


def found(kind, objects, query):
    """The names of those of these objects that the query finds, in the order of their bytes."""
    return sorted(name for name, tree in objects.items() if meets(query, pairs_of(kind, tree)))
