"""Objects of the four kinds and items of data bags: bodies drawn from numbers, and what is stored of them, written from
docs/reference/objects.md.
"""
import json

LEVELS = ("automatic", "override", "normal", "default")
NAMES = ["a", "b", "ab", "a-b", "B", "a:b", "a10", "a2"]
KEYS = ["a", "b", "a_b", "ab", "default", "name", "é", "a b", "-a", "x:y"]
WORDS = ["", "a", "b", "ab", "abb", "ba", "a b", "a*", "b?", "é", "éé", "aéb", "ébé", "10", "true", "TO", "\\", '"', "a]", "(b)", "x:y"]
WHOLES = [0, 1, 2, 9, 10, 11, 100, -1, 18446744073709551615]
ITEMS = ["a", "recipe[a]", "role[a]", "recipe[b]", "a::b", "recipe[a::b@1.2.0]", "role[b]", "b@1.0"]


def value(numbers, depth):
    form = numbers.below(10 if depth else 7)
    if form < 4:
        return numbers.one_of(WORDS)
    if form < 6:
        return numbers.one_of(WHOLES)
    if form == 6:
        return numbers.one_of([True, False, None])
    if form == 7:
        return [value(numbers, depth - 1) for _ in range(numbers.below(4))]
    return attributes(numbers, depth - 1)


def attributes(numbers, depth=2):
    return {numbers.one_of(KEYS): value(numbers, depth) for _ in range(numbers.below(4))}


def run_list(numbers):
    return [numbers.one_of(ITEMS) for _ in range(numbers.below(4))]


def sent_fields(numbers, kind):
    """Some fields of an object, but for its name."""
    if kind == "node":
        drawn = {level: attributes(numbers) for level in LEVELS}
        drawn.update(chef_environment=numbers.one_of(NAMES[:3]), run_list=run_list(numbers), policy_name="a", policy_group="b")
    elif kind == "role":
        drawn = {"run_list": run_list(numbers), "env_run_lists": {name: run_list(numbers) for name in numbers.some_of(NAMES[:3], 1)}}
        drawn.update(description=numbers.one_of(WORDS), default_attributes=attributes(numbers), override_attributes=attributes(numbers))
    elif kind == "environment":
        drawn = {"cookbook_versions": {name: numbers.one_of(["= 1.0.0", "~> 1.2"]) for name in numbers.some_of(NAMES[:3], 1)}}
        drawn.update(description=numbers.one_of(WORDS), default_attributes=attributes(numbers), override_attributes=attributes(numbers))
    elif kind == "client":
        drawn = {"validator": numbers.one_of([True, False])}
    else:
        return attributes(numbers, 3)
    return {field: drawn[field] for field in numbers.some_of(drawn, numbers.below(len(drawn) + 1))}


def wrapped(items):
    return [item if item.endswith("]") else "recipe[%s]" % item for item in items]


def stored(kind, name, fields):
    """The object that is kept of these fields."""
    if kind == "node":
        tree = {"chef_type": "node", "json_class": "Chef::Node", "chef_environment": "_default", "run_list": [], **{level: {} for level in LEVELS}}
    elif kind == "role":
        tree = {"chef_type": "role", "json_class": "Chef::Role", "description": "", "run_list": [], "env_run_lists": {}}
        tree.update(default_attributes={}, override_attributes={})
    elif kind == "environment":
        tree = {"chef_type": "environment", "json_class": "Chef::Environment", "description": "", "cookbook_versions": {}}
        tree.update(default_attributes={}, override_attributes={})
    elif kind == "client":
        tree = {"validator": False}
    else:
        return {**fields, "id": name}
    tree.update(fields, name=name)
    if kind in ("node", "role"):
        tree["run_list"] = wrapped(tree["run_list"])
    if kind == "role":
        tree["env_run_lists"] = {key: wrapped(items) for key, items in tree["env_run_lists"].items()}
    return tree


def text(tree):
    return json.dumps(tree, ensure_ascii=False, sort_keys=True, separators=(",", ":"))
