#!/usr/bin/env python3
"""Writes lists of layers for bench/attr_merge/run into a folder: each layer is its level, its name
and its attributes."""
import json
import os
import sys


def automatic(layer):
    """A tree of 3,600 values, depth 6, in the shape of what a machine tells of itself."""
    packages = {f"package-{n:04}": {"version": f"1:2.{n % 50}.{n % 7}~git20260101.{n:08x}-{layer}+deb12u1", "arch": "amd64"} for n in range(1500)}
    interfaces = {
        f"eth{n}": {"addresses": {f"10.0.{n}.{m}": {"family": "inet", "prefix": 24, "scope": "global"} for m in range(25)}}
        for n in range(8)
    }
    return {"packages": packages, "network": {"interfaces": interfaces}}


def leaves(layer, count, apart):
    """Leaves below ten keys, of which all layers have the same, or each its own."""
    tree = {}
    for n in range(count):
        tree.setdefault(f"group{n % 10}", {})[f"key{n:05}-{layer if apart else 0:03}"] = n
    return tree


LISTS = {
    "1-layer-of-138-kB": [(1, automatic(0))],
    "15-layers-of-138-kB": [(n + 1, automatic(n)) for n in range(15)],
    "30-layers-of-138-kB": [(n // 2 + 1, automatic(n)) for n in range(30)],
    "100-layers-of-1,000-equal-paths": [(n // 10 + 1, leaves(n, 1000, False)) for n in range(100)],
    "100-layers-of-1,000-paths-of-their-own": [(n // 10 + 1, leaves(n, 1000, True)) for n in range(100)],
    "two-arrays-of-10,000": [(n + 1, {"a": [f"element {m}" for m in range(n * 5000, n * 5000 + 10000)]}) for n in range(2)],
}

for name, layers in LISTS.items():
    with open(os.path.join(sys.argv[1], name + ".json"), "w") as out:
        json.dump([[level, f"L{place}", tree] for place, (level, tree) in enumerate(layers)], out, separators=(",", ":"))
