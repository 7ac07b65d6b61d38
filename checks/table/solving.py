"""Rows on the versions for a run list, and on the universe."""
from table.cookbooks import *
from table.forms import *

H, T, K, L = ("/organizations/" + name for name in ("eta", "theta", "kappa", "lambda"))
ANY = ">= 0.0.0"

# cookbooks, each with its versions, each with what it needs
BOOKS = {
    "a": {"2.0.0": {"b": ">= 2.0.0"}, "1.0.0": {"b": "~> 1.0"}},
    "b": {"1.5.0": {}, "1.0.0": {}},
    "c": {"2.0.0": {"c": "= 1.0.0"}, "1.0.0": {"c": "= 1.0.0"}},
    "d": {"1.0.0": {"e": ANY}},
    "e": {"1.0.0": {"d": "= 1.0.0"}},
    "p": {"2.0.0": {"q": "< 2.0.0"}, "1.0.0": {}},
    "q": {"2.0.0": {}, "1.0.0": {}},
    "x": {"1.0.0": {"p": ANY, "q": ANY}},
}


def put_versions(org, books):
    """Each version of these cookbooks is put."""
    for name, versions in books.items():
        for version, needs in versions.items():
            path = "/organizations/%s/cookbooks/%s/%s" % (org, name, version)
            yield ("PUT", path, sent(name, version, needs=needs), (201, manifest(org, name, version, needs=needs)))


def universe(org, books):
    """The universe of these cookbooks, all keys in byte order."""
    release = '{"dependencies":%s,"location_path":"/organizations/%s","location_type":"chef_server"}'
    shown = {
        name: "{%s}" % ",".join('"%s":%s' % (version, release % (constraints(in_order(versions[version])), org)) for version in sorted(versions))
        for name, versions in books.items()
    }
    return 200, "{%s}" % ",".join('"%s":%s' % entry for entry in in_order(shown).items())


def asked(*items):
    """The body that asks for the versions for these items."""
    return '{"run_list":%s}' % texts(items)


def chosen(org, books, **versions):
    """The reply with these versions of these cookbooks."""
    shown = {name: manifest(org, name, version, needs=books[name][version]) for name, version in versions.items()}
    return 200, "{%s}" % ",".join('"%s":%s' % entry for entry in in_order(shown).items())


def unsolvable(no_cookbook=(), no_version=()):
    """412 with the roots that aren't there, and those of which no version may be chosen."""
    told = '{"error":[{"cookbooks_with_no_versions":%s,"message":"no set of cookbook versions meets the run list","non_existent_cookbooks":%s}]}'
    return 412, told % (texts(no_version), texts(no_cookbook))


def the_worked_universes():
    """What each of six sets of cookbooks has for a best choice, beside one another in one organisation."""
    solve = H + "/environments/_default/cookbook_versions"
    yield ("POST", solve, asked("a"), NOT_FOUND)
    yield ("GET", H + "/universe", "", NOT_FOUND)
    yield ("POST", "/organizations", '{"name":"eta"}', uri(H))
    # of no cookbook
    yield ("GET", H + "/universe", "", (200, "{}"))
    yield ("POST", solve, asked(), (200, "{}"))
    yield ("POST", solve, asked("recipe[b]", "recipe[a]"), unsolvable(no_cookbook=["a", "b"]))
    yield from put_versions("eta", BOOKS)
    yield ("GET", H + "/universe", "", universe("eta", BOOKS))
    # the newest of the first root has no solution
    for items in (["recipe[a]"], ["a"], ["recipe[a::x]"], ["a::x", "recipe[a]", "a"]):
        yield ("POST", solve, asked(*items), chosen("eta", BOOKS, a="1.0.0", b="1.5.0"))
    yield ("POST", solve, asked("recipe[a@2.0.0]"), unsolvable())
    yield ("POST", solve, asked("recipe[z]"), unsolvable(no_cookbook=["z"]))
    # it needs itself, at another version; and two need each other
    yield ("POST", solve, asked("recipe[c]"), chosen("eta", BOOKS, c="1.0.0"))
    yield ("POST", solve, asked("recipe[d]"), chosen("eta", BOOKS, d="1.0.0", e="1.0.0"))
    yield ("POST", solve, asked("recipe[e]"), chosen("eta", BOOKS, d="1.0.0", e="1.0.0"))
    # the newest at each name has no solution, and the first in the walk counts
    yield ("POST", solve, asked("recipe[x]"), chosen("eta", BOOKS, p="2.0.0", q="1.0.0", x="1.0.0"))
    yield ("POST", solve, asked("recipe[p]", "recipe[q]"), chosen("eta", BOOKS, p="2.0.0", q="1.0.0"))
    yield ("POST", solve, asked("recipe[q]", "recipe[p]"), chosen("eta", BOOKS, p="1.0.0", q="2.0.0"))
    yield ("POST", solve, asked("recipe[q]", "recipe[x]"), chosen("eta", BOOKS, p="1.0.0", q="2.0.0", x="1.0.0"))
    # a root beside it, of which nothing is needed, and one that nothing needs
    yield ("POST", solve, asked("b", "c"), chosen("eta", BOOKS, b="1.5.0", c="1.0.0"))
    yield ("POST", solve, asked("b"), chosen("eta", BOOKS, b="1.5.0"))


def the_rules_of_an_environment():
    """What an environment's `cookbook_versions` ask; `_default` asks nothing."""
    prod = H + "/environments/prod"
    solve = prod + "/cookbook_versions"
    a_and_b = lambda b: chosen("eta", BOOKS, a="1.0.0", b=b)
    yield ("POST", solve, asked("recipe[a]"), NOT_FOUND)
    yield ("POST", H + "/environments", '{"name":"prod","cookbook_versions":{"b":"= 1.0.0"}}', uri(prod))
    yield ("POST", solve, asked("recipe[a]"), a_and_b("1.0.0"))
    yield ("POST", H + "/environments/_default/cookbook_versions", asked("recipe[a]"), a_and_b("1.5.0"))
    yield ("POST", solve, asked("recipe[b@1.5.0]"), unsolvable(no_version=["b"]))
    yield ("POST", solve, asked("recipe[b@1.0]", "x"), chosen("eta", BOOKS, b="1.0.0", p="2.0.0", q="1.0.0", x="1.0.0"))
    for rules, items, due in (
        ({"a": ">= 2.0.0"}, ["recipe[a]"], unsolvable()),
        ({"a": "> 2.0.0"}, ["recipe[a]"], unsolvable(no_version=["a"])),
        ({"a": "> 2.0.0"}, ["recipe[b]", "recipe[a]", "recipe[z]", "recipe[y]"], unsolvable(["y", "z"], ["a"])),
        ({"q": "> 2.0", "p": "< 1.0"}, ["q", "b", "p"], unsolvable(no_version=["p", "q"])),
        # a rule on what is needed, on what isn't chosen, and on what isn't there
        ({"b": "> 1.5.0"}, ["recipe[a]"], unsolvable()),
        ({"p": "< 2.0"}, ["recipe[x]"], chosen("eta", BOOKS, p="1.0.0", q="2.0.0", x="1.0.0")),
        ({"q": "= 9.0.0", "z": "= 9.0.0"}, ["recipe[a]"], a_and_b("1.5.0")),
        ({}, [], (200, "{}")),
        ({}, ["recipe[a]"], a_and_b("1.5.0")),
        ({}, ["role[r]"], bad("run_list")),
    ):
        yield ("PUT", prod, '{"cookbook_versions":%s}' % constraints(rules), (200, environment("prod", constraints(in_order(rules)))))
        yield ("POST", solve, asked(*items), due)
    yield ("DELETE", prod, "", (200, environment("prod")))
    yield ("POST", solve, asked("recipe[a]"), NOT_FOUND)


def pins():
    """A version in an item holds its cookbook to just that one."""
    solve = H + "/environments/_default/cookbook_versions"
    for items, versions in (
        (["recipe[a@1.0.0]"], {"a": "1.0.0", "b": "1.5.0"}),
        (["a@1.0"], {"a": "1.0.0", "b": "1.5.0"}),
        (["recipe[a::x@01.0.0]", "a", "a@1.0"], {"a": "1.0.0", "b": "1.5.0"}),
        (["recipe[q@1.0.0]"], {"q": "1.0.0"}),
        (["recipe[a]", "recipe[b@1.0.0]"], {"a": "1.0.0", "b": "1.0.0"}),
        (["recipe[b@1.0.0]", "recipe[a]"], {"a": "1.0.0", "b": "1.0.0"}),
        (["recipe[x]", "recipe[q@2.0.0]"], {"p": "1.0.0", "q": "2.0.0", "x": "1.0.0"}),
    ):
        yield ("POST", solve, asked(*items), chosen("eta", BOOKS, **versions))
    # two pins of one cookbook, a pin of no version, and one of no cookbook; the lists are in byte order
    yield ("POST", solve, asked("recipe[a@1.0.0]", "recipe[a@2.0.0]"), unsolvable(no_version=["a"]))
    yield ("POST", solve, asked("recipe[b]", "a@2.0.0", "a::x@1.0"), unsolvable(no_version=["a"]))
    yield ("POST", solve, asked("recipe[a@1.9.0]"), unsolvable(no_version=["a"]))
    yield ("POST", solve, asked("recipe[z@1.0.0]"), unsolvable(no_cookbook=["z"]))
    yield ("POST", solve, asked("q@3.0", "z", "b", "a@9.9", "y@1.0"), unsolvable(["y", "z"], ["a", "q"]))
    yield ("POST", solve, asked("recipe[c@2.0.0]"), unsolvable())


# versions that lie at the bounds of what stands below, and the greatest of them that meets each constraint
EDGES = ["1.1.9", "1.2.0", "1.2.3", "1.2.9", "1.3.0", "1.9.9", "2.0.0"]
MEETING = [
    ("~> 1.2", "1.9.9"), ("~> 1.2.0", "1.2.9"), ("~> 1.2.3", "1.2.9"), ("~> 1.1.9", "1.1.9"), ("~> 2.0", "2.0.0"),
    ("~> 1.4.0", None), ("~> 2.1", None), (">= 2.0", "2.0.0"), (">= 2.0.1", None), ("> 1.9.9", "2.0.0"), ("> 2.0", None),
    ("< 2.0", "1.9.9"), ("< 1.2", "1.1.9"), ("< 1.2.1", "1.2.0"), ("< 1.1.9", None), ("<= 1.2", "1.2.0"), ("<= 1.1.9", "1.1.9"),
    ("<= 1.1.8", None), ("= 1.2", "1.2.0"), ("= 1.2.4", None), ("1.3", "1.3.0"), ("=1.9.9", "1.9.9"),
]


def bounds():
    """Constraints of two and of three parts at their bounds: of a need, and of an environment."""
    edge, solve = T + "/environments/edge", T + "/environments/%s/cookbook_versions"
    books = {"k": {version: {} for version in EDGES}}
    books.update({"n%02d" % place: {"1.0.0": {"k": constraint}} for place, (constraint, _) in enumerate(MEETING)})
    yield ("POST", "/organizations", '{"name":"theta"}', uri(T))
    yield ("POST", T + "/environments", '{"name":"edge"}', uri(edge))
    yield from put_versions("theta", books)
    for place, (constraint, version) in enumerate(MEETING):
        name = "n%02d" % place
        yield ("POST", solve % "_default", asked(name), chosen("theta", books, k=version, **{name: "1.0.0"}) if version else unsolvable())
        yield ("PUT", edge, '{"cookbook_versions":{"k":"%s"}}' % constraint, (200, environment("edge", '{"k":"%s"}' % constraint)))
        yield ("POST", solve % "edge", asked("k"), chosen("theta", books, k=version) if version else unsolvable(no_version=["k"]))
    # two needs of one cookbook, which meet in a few versions, and which don't
    yield ("POST", solve % "_default", asked("n02", "n00", "n13"), unsolvable())
    yield ("POST", solve % "_default", asked("n00", "n02", "n11"), chosen("theta", books, k="1.2.9", n00="1.0.0", n02="1.0.0", n11="1.0.0"))


def what_is_needed():
    """Needs that aren't there, needs of needs, and the order of the walk."""
    solve = K + "/environments/_default/cookbook_versions"
    books = {
        "none": {"1.0.0": {"gone": ANY}},
        "old": {"2.0.0": {"gone": ANY}, "1.0.0": {}},
        "far": {"3.0.0": {"none": ANY}, "2.0.0": {"old": "= 2.0.0"}, "1.0.0": {"old": ANY}},
        "range": {"1.0.0": {"old": "> 2.0.0"}},
        "ring": {"2.0.0": {"ring": ANY, "wing": ANY}, "1.0.0": {"ring": "< 1.0"}},
        "wing": {"2.0.0": {"ring": "= 1.0.0"}, "1.0.0": {"ring": "~> 2.0"}},
        "low": {"1.0.0": {"low": "> 1.0.0"}},
        # breadth first `m` comes before `t`; depth first `t` would, since `l` needs it
        "top": {"1.0.0": {"l": ANY, "m": ANY}},
        "l": {"1.0.0": {"t": ANY}},
        "m": {"2.0.0": {"t": "< 2.0"}, "1.0.0": {}},
        "t": {"2.0.0": {}, "1.0.0": {}},
        # the needs of `wide` are in byte order in the walk, however they are sent
        "wide": {"1.0.0": {"q2": ANY, "q1": ANY}},
        "q1": {"2.0.0": {"q2": "= 1.0.0"}, "1.0.0": {}},
        "q2": {"2.0.0": {"q1": "= 1.0.0"}, "1.0.0": {}},
        # the newest by number, not by text
        "many": {"1.9.0": {}, "1.10.0": {}, "1.2.0": {}, "0.99.99": {}},
    }
    yield ("POST", "/organizations", '{"name":"kappa"}', uri(K))
    yield from put_versions("kappa", books)
    yield ("GET", K + "/universe", "", universe("kappa", books))
    for items, due in (
        (["none"], None),
        (["old"], {"old": "1.0.0"}),
        (["far"], {"far": "1.0.0", "old": "1.0.0"}),
        (["far", "old@2.0.0"], None),
        (["range"], None),
        (["ring"], {"ring": "2.0.0", "wing": "1.0.0"}),
        (["wing"], {"ring": "2.0.0", "wing": "1.0.0"}),
        (["ring@1.0.0"], None),
        (["low"], None),
        (["top"], {"l": "1.0.0", "m": "2.0.0", "t": "1.0.0", "top": "1.0.0"}),
        (["t", "top"], {"l": "1.0.0", "m": "1.0.0", "t": "2.0.0", "top": "1.0.0"}),
        (["wide"], {"q1": "2.0.0", "q2": "1.0.0", "wide": "1.0.0"}),
        (["q2", "wide"], {"q1": "1.0.0", "q2": "2.0.0", "wide": "1.0.0"}),
        (["many"], {"many": "1.10.0"}),
        (["many", "none"], None),
    ):
        yield ("POST", solve, asked(*items), chosen("kappa", books, **due) if due else unsolvable())
    # a choice follows what is put and removed
    yield ("DELETE", K + "/cookbooks/many/1.10.0", "", (200, manifest("kappa", "many", "1.10.0")))
    yield ("POST", solve, asked("many"), chosen("kappa", books, many="1.9.0"))
    yield ("POST", solve, asked("many@1.10"), unsolvable(no_version=["many"]))
    yield ("PUT", K + "/cookbooks/old/2.0.0", sent("old", "2.0.0"), (200, manifest("kappa", "old", "2.0.0")))
    books["old"]["2.0.0"] = {}
    yield ("POST", solve, asked("old"), chosen("kappa", books, old="2.0.0"))
    yield ("PUT", K + "/cookbooks/gone/0.0.0", sent("gone", "0.0.0"), (201, manifest("kappa", "gone", "0.0.0")))
    books["gone"] = {"0.0.0": {}}
    yield ("POST", solve, asked("none"), chosen("kappa", books, gone="0.0.0", none="1.0.0"))
    yield ("DELETE", K + "/cookbooks/gone/0.0.0", "", (200, manifest("kappa", "gone", "0.0.0")))
    yield ("POST", solve, asked("none"), unsolvable())
    yield ("POST", solve, asked("gone", "none"), unsolvable(no_cookbook=["gone"]))


def what_a_universe_shows():
    """Dependencies as they were sent, versions in the byte order of their numbers, and what files a choice shows."""
    web, solve = L + "/cookbooks/web", L + "/environments/_default/cookbook_versions"
    needs = {"db": " >=1.0 ", "base": "1.2"}
    books = {"web": {"1.10.0": needs, "1.9.0": {}, "1.2.0": {"web": "~>1.2"}}, "Web": {"0.0.1": {}}, "we": {"1.0.0": {}}}
    yield ("POST", "/organizations", '{"name":"lambda"}', uri(L))
    yield ("POST", L + "/users", '{"username":"ann"}', uri(L + "/users/ann"))
    yield ("POST", L + "/clients", '{"name":"web1"}', uri(L + "/clients/web1"))
    yield ("GET", L + "/universe", "", (200, "{}"), by("web1"))
    yield from put_versions("lambda", books)
    yield ("GET", L + "/universe", "", universe("lambda", books), by("web1"))
    yield ("GET", L + "/universe?q=x", "", universe("lambda", books))
    # where no dependencies were sent there are none, and a manifest that is put again takes the place of the one before
    yield ("PUT", L + "/cookbooks/we/1.0.0", sent("we", "1.0.0"), (200, manifest("lambda", "we", "1.0.0")))
    yield ("GET", L + "/universe", "", universe("lambda", books))
    yield ("PUT", web + "/1.10", sent("web", "1.10.0", needs={"db": "= 1.0.0"}), (200, manifest("lambda", "web", "1.10.0", needs={"db": "= 1.0.0"})))
    books["web"]["1.10.0"] = {"db": "= 1.0.0"}
    yield ("GET", L + "/universe", "", universe("lambda", books))
    yield ("POST", solve, asked("web"), chosen("lambda", books, web="1.9.0"))
    # the reply has what GET of the version gives: its files with their urls, and whether it is frozen
    yield from uploaded("lambda", 1, "a")
    kept = manifest("lambda", "db", "1.0.0", SUM_A, frozen=True)
    yield ("PUT", L + "/cookbooks/db/1.0.0", sent("db", "1.0.0", SUM_A, more='"frozen?":true,'), (201, kept))
    yield ("GET", L + "/cookbooks/db/1.0.0", "", (200, kept))
    yield ("POST", solve, asked("db"), (200, '{"db":%s}' % kept))
    yield ("POST", solve, asked("web"), (200, '{"db":%s,"web":%s}' % (kept, manifest("lambda", "web", "1.10.0", needs={"db": "= 1.0.0"}))), by("web1"))
    yield ("DELETE", L + "/cookbooks/db/1.0.0", "", (200, kept))
    for version in books["web"]:
        yield ("DELETE", web + "/" + version, "", (200, manifest("lambda", "web", version, needs=books["web"][version])))
    del books["web"]
    yield ("GET", L + "/universe", "", universe("lambda", books))


def what_these_refuse():
    """Bodies that ask for no versions, and paths and methods that aren't there."""
    solve, none = H + "/environments/_default/cookbook_versions", "/organizations/none"
    yield ("POST", solve, "", NOT_JSON)
    yield ("POST", solve, "{", NOT_JSON)
    yield ("POST", solve, '{"run_list":["a",1.5]}', (400, error("number is not whole")))
    yield ("POST", solve, '{"run_list":["a"],"more":1.5}', (400, error("number is not whole")))
    yield ("POST", solve, '{"run_list":%s}' % DEEP, (400, error("body is too deep")))
    for body in ("{}", "[]", '["a"]', '"run_list"', '{"Run_list":["a"]}', '{"run_list":null}', '{"run_list":"a"}', '{"run_list":{}}', '{"run_list":{"a":"a"}}'):
        yield ("POST", solve, body, bad("run_list"))
    for item in ("null", "7", '["a"]', '{"a":"a"}', '"role[r]"', '"role["', '"recipe["', '"recipe[]"', '""', '"a b"', '"a@1"', '"recipe[a@]"', '"recipe[a@1.0@2.0]"', '"a::"', '"%s"' % ("a" * 256)):
        yield ("POST", solve, '{"run_list":["b",%s]}' % item, bad("run_list"))
    # what is no item counts before roots that aren't there; more keys are passed over; of two lists the last counts
    yield ("POST", solve, asked("z", "role[r]", "b"), bad("run_list"))
    yield ("POST", solve, '{"more":[{}],"run_list":["b"]}', chosen("eta", BOOKS, b="1.5.0"))
    yield ("POST", solve, '{"run_list":["role[r]"],"run_list":["b"]}', chosen("eta", BOOKS, b="1.5.0"))
    yield ("POST", solve, '{"run_list":["b"],"run_list":["role[r]"]}', bad("run_list"))
    # an environment that isn't there: the body's form comes first, and all of it. Of no name's form it is only read
    for name in ("late", "_acl", "PROD"):
        yield ("POST", H + "/environments/%s/cookbook_versions" % name, "{}", bad("run_list"))
        yield ("POST", H + "/environments/%s/cookbook_versions" % name, asked("a"), NOT_FOUND)
    for name in ("a%20b", "e" * 256):
        path = H + "/environments/%s/cookbook_versions" % name
        yield ("POST", path, "{", NOT_JSON)
        yield ("POST", path, '{"x":1.5}', (400, error("number is not whole")))
        yield ("POST", path, "[]", NOT_FOUND)
        yield ("POST", path, asked("role[r]"), NOT_FOUND)
        yield ("POST", path, asked("a"), NOT_FOUND)
    # the head and the organisation come before the body
    for method in ("GET", "PUT", "DELETE", "PATCH", "post"):
        yield (method, solve, "{", NOT_ALLOWED)
        yield (method, none + "/environments/e/cookbook_versions", asked(), NOT_ALLOWED, by("eve"))
    for method in ("POST", "PUT", "DELETE", "PATCH"):
        yield (method, H + "/universe", "{", NOT_ALLOWED)
        yield (method, none + "/universe", "", NOT_ALLOWED, by("eve"))
    for path in ("/universe/a", "/universe/", "/environments/_default/cookbook_versions/a", "/cookbook_versions", "/environments/_default/universe"):
        yield ("GET", H + path, "", NOT_FOUND)
    yield ("GET", "/universe", "", NOT_FOUND)
    yield ("POST", none + "/environments/_default/cookbook_versions", "{", NOT_FOUND)
    yield ("GET", none + "/universe", "", NOT_FOUND)
    yield ("GET", H + "/universe", "", NOT_TAKEN, OPERATOR + "X-Ops-Server-API-Version: 2\r\n")
    yield ("POST", solve, "{", NOT_TAKEN, OPERATOR + "X-Ops-Server-API-Version: 7\r\n")
    yield ("GET", H + "/universe", "", universe("eta", BOOKS), OPERATOR + "X-Ops-Server-API-Version: 1\r\n")


def who_may_choose():
    """Users and clients read both from the start; an environment's own list and the container's each count."""
    prod, books = H + "/environments/prod", H + "/containers/cookbooks"
    solve, all_ = prod + "/cookbook_versions", universe("eta", BOOKS)
    b = chosen("eta", BOOKS, b="1.5.0")
    yield ("POST", H + "/users", '{"username":"ann"}', uri(H + "/users/ann"))
    yield ("POST", H + "/clients", '{"name":"web1"}', uri(H + "/clients/web1"))
    yield ("POST", H + "/environments", '{"name":"prod"}', uri(prod))
    for caller in ("ann", "web1"):
        yield ("GET", H + "/universe", "", all_, by(caller))
        yield ("POST", solve, asked("b"), b, by(caller))
    for caller in (by("eve"), "", OPERATOR + OPERATOR):
        yield ("GET", H + "/universe", "", UNKNOWN, caller)
        yield ("POST", solve, asked("b"), UNKNOWN, caller)
        yield ("POST", solve, "{", UNKNOWN, caller)
    # the environment's list alone
    yield ("PUT", prod + "/_acl/read", permission("read", groups=AU), (200, "{}"))
    yield ("POST", solve, asked("b"), missing("read"), by("web1"))
    yield ("POST", solve, asked("b"), b, by("ann"))
    yield ("POST", H + "/environments/_default/cookbook_versions", asked("b"), b, by("web1"))
    yield ("GET", H + "/universe", "", all_, by("web1"))
    # the container's too: ann lacks it, and web1 lacks both
    yield ("PUT", books + "/_acl/read", permission("read", groups=A), (200, "{}"))
    for caller in ("ann", "web1"):
        yield ("POST", solve, asked("b"), missing("read"), by(caller))
        yield ("GET", H + "/universe", "", missing("read"), by(caller))
    yield ("POST", solve, asked("b"), b)
    # behind the body's form and the environment, and before what has no solution
    yield ("POST", solve, asked("role[r]"), bad("run_list"), by("web1"))
    yield ("POST", H + "/environments/late/cookbook_versions", asked("b"), NOT_FOUND, by("web1"))
    yield ("POST", solve, asked("z"), missing("read"), by("web1"))
    # an actor of both lists
    yield ("PUT", books + "/_acl/read", permission("read", ["web1"]), (200, "{}"))
    yield ("POST", solve, asked("b"), missing("read"), by("web1"))
    yield ("PUT", prod + "/_acl/read", permission("read", ["web1"]), (200, "{}"))
    yield ("POST", solve, asked("b"), b, by("web1"))
    yield ("POST", solve, asked("z"), unsolvable(no_cookbook=["z"]), by("web1"))
    yield ("GET", H + "/universe", "", all_, by("web1"))
    yield ("POST", solve, asked("b"), missing("read"), by("ann"))
    # a cookbook's own list isn't asked
    yield ("PUT", H + "/cookbooks/b/_acl/read", permission("read", groups=A), (200, "{}"))
    yield ("GET", H + "/cookbooks/b/1.5.0", "", missing("read"), by("web1"))
    yield ("POST", solve, asked("b"), b, by("web1"))
    yield ("GET", H + "/universe", "", all_, by("web1"))


def another_organisation_chooses():
    """What `beta` asks is answered of its own cookbooks and environments alone, and the other way round."""
    solve = "/environments/_default/cookbook_versions"
    theirs = {"a": {"3.0.0": {"b": ANY}}, "b": {"1.9.0": {}}}
    yield ("GET", B + "/universe", "", (200, "{}"))
    yield ("POST", B + solve, asked("recipe[a]"), unsolvable(no_cookbook=["a"]))
    yield ("POST", B + "/environments/prod/cookbook_versions", asked("recipe[b]"), NOT_FOUND)
    yield ("GET", B + "/universe", "", UNKNOWN, by("web1"))
    yield from put_versions("beta", theirs)
    yield ("GET", B + "/universe", "", universe("beta", theirs))
    yield ("POST", B + solve, asked("recipe[a]"), chosen("beta", theirs, a="3.0.0", b="1.9.0"))
    yield ("POST", B + solve, asked("recipe[a@1.0.0]"), unsolvable(no_version=["a"]))
    yield ("POST", B + solve, asked("recipe[x]", "b"), unsolvable(no_cookbook=["x"]))
    yield ("GET", H + "/universe", "", universe("eta", BOOKS))
    yield ("POST", H + solve, asked("recipe[a]"), chosen("eta", BOOKS, a="1.0.0", b="1.5.0"))


def versions_for_run_lists():
    yield from the_worked_universes()
    yield from the_rules_of_an_environment()
    yield from pins()
    yield from bounds()
    yield from what_is_needed()
    yield from what_a_universe_shows()
    yield from what_these_refuse()
    yield from who_may_choose()
    yield from another_organisation_chooses()
