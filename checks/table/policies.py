"""Rows on artifacts, policies and policy groups."""
from table.cookbooks import *
from table.forms import *

S = "/organizations/sigma"
BOOKS_OF, POLICIES_OF, GROUPS_OF = S + "/cookbook_artifacts", S + "/policies", S + "/policy_groups"

# The SHA-1 of `recipes/r0.rb:0cc175b9c0f1b6a831c399e269772661` and LF, by sha1sum, and two that no file has
ID_A, ID_B, ID_C = "c97b1312bc4eddb4f0c8d1ff475984fba4b2be17", "b" * 40, "0123456789abcdef0123456789abcdef01234567"


def identified(cookbook, version, identifier, *sums, more=""):
    """The body that puts a version as an artifact under this identifier."""
    return sent(cookbook, version, *sums, more='"identifier":"%s",%s' % (identifier, more))


def artifact(org, cookbook, version, identifier, *sums):
    """An artifact as a reply shows it: a manifest under the cookbook's name, with its identifier."""
    shown = manifest(org, cookbook, version, *sums)
    for old, new in (
        ('"cookbook_name":"%s",' % cookbook, ""), ('"json_class"', '"identifier":"%s","json_class"' % identifier),
        ('"name":"%s-%s"' % (cookbook, version), '"name":"%s"' % cookbook),
    ):
        shown = shown.replace(old, new)
    return shown


def artifacts(org, **cookbooks):
    """The listing of these cookbooks, each with these identifiers."""
    front = "/organizations/%s/cookbook_artifacts/" % org
    each = lambda name, its: '{"identifier":"%s","url":"%s%s/%s"}' % (its, front, name, its)
    return 200, "{%s}" % ",".join(
        '"%s":{"artifacts":[%s],"url":"%s"}' % (name, ",".join(each(name, its) for its in identifiers), front + name)
        for name, identifiers in cookbooks.items()
    )


def lock(policy, revision, *run_list, default="{}", more="", **cookbooks):
    """A lock as it is stored, with each of these cookbooks as a version and its identifier."""
    locked = ",".join('"%s":{"identifier":"%s","version":"%s"}' % (name, its[1], its[0]) for name, its in in_order(cookbooks).items())
    return (
        '{%s"cookbook_locks":{%s},"default_attributes":%s,"name":"%s","named_run_lists":{},"override_attributes":{},'
        '"revision_id":"%s","run_list":%s,"solution_dependencies":{}}' % (more, locked, default, policy, revision, texts(run_list))
    )


def revisions(*names):
    """The revisions of a policy."""
    return '{"revisions":{%s}}' % ",".join('"%s":{}' % name for name in names)


def policies_listed(org, **policies):
    """The listing of these policies, each with these revisions."""
    return 200, "{%s}" % ",".join(
        '"%s":%s,"uri":"/organizations/%s/policies/%s"}' % (name, revisions(*its)[:-1], org, name) for name, its in policies.items()
    )


def assigns(org, group, **policies):
    """A policy group that assigns each of these policies at this revision."""
    return '{"policies":{%s},"uri":"/organizations/%s/policy_groups/%s"}' % (
        ",".join('"%s":{"revision_id":"%s"}' % entry for entry in policies.items()), org, group,
    )


def lacks_artifact(cookbook, identifier):
    return 400, error("missing artifact %s/%s" % (cookbook, identifier))


def artifacts_come():
    """An artifact comes once its files are there, is read back, and is never replaced."""
    web = BOOKS_OF + "/web"
    yield ("GET", BOOKS_OF, "", NOT_FOUND)
    yield ("POST", "/organizations", '{"name":"sigma"}', uri(S))
    yield ("POST", S + "/users", '{"username":"ann"}', uri(S + "/users/ann"))
    yield ("POST", S + "/clients", '{"name":"web1"}', uri(S + "/clients/web1"))
    for collection in (BOOKS_OF, POLICIES_OF, GROUPS_OF):
        yield ("GET", collection, "", (200, "{}"), by("web1"))
    yield ("PUT", web + "/" + ID_A, identified("web", "1.0.0", ID_A, SUM_A, SUM_B), lacking(SUM_A, SUM_B))
    yield from uploaded("sigma", 1, "a", "b")
    yield ("PUT", web + "/" + ID_A, identified("web", "1.0.0", ID_A, SUM_A), (201, artifact("sigma", "web", "1.0.0", ID_A, SUM_A)), by("ann"))
    yield ("GET", web + "/" + ID_A, "", (200, artifact("sigma", "web", "1.0.0", ID_A, SUM_A)), by("web1"))
    yield ("GET", web + "/_acl", "", (200, acl(AU, AKU, AU, AU, A, ["ann"])))
    # the same again, and another under the same identifier
    yield ("PUT", web + "/" + ID_A, identified("web", "1.0.0", ID_A, SUM_A), EXISTS)
    yield ("PUT", web + "/" + ID_A, identified("web", "1.0.1", ID_A, SUM_ABC), EXISTS)
    yield ("GET", web + "/" + ID_A, "", (200, artifact("sigma", "web", "1.0.0", ID_A, SUM_A)))
    # the same version under other identifiers, with the name that it may state; listed in byte order
    yield ("PUT", web + "/" + ID_B, identified("web", "1.0.0", ID_B, more='"name":"web",'), (201, artifact("sigma", "web", "1.0.0", ID_B)))
    yield ("PUT", web + "/" + ID_C, identified("web", "1.0.0", ID_C, SUM_A), (201, artifact("sigma", "web", "1.0.0", ID_C, SUM_A)))
    yield ("PUT", BOOKS_OF + "/app/" + ID_B, identified("app", "0.1.0", ID_B, SUM_B), (201, artifact("sigma", "app", "0.1.0", ID_B, SUM_B)))
    yield ("GET", BOOKS_OF, "", artifacts("sigma", app=[ID_B], web=sorted([ID_A, ID_B, ID_C])), by("web1"))
    # a cookbook of that name is another thing
    yield ("GET", S + "/cookbooks", "", (200, "{}"))
    yield ("GET", S + "/cookbooks/web/_acl", "", NOT_FOUND)


def artifacts_refuse():
    """What a PUT of an artifact refuses, and paths and methods that aren't there."""
    one = BOOKS_OF + "/web/" + "c" * 40
    right = identified("web", "3.0.0", "c" * 40)
    for body in ("", "{"):
        yield ("PUT", one, body, NOT_JSON)
    for body, field in (
        ("[]", "name"), ("{}", "version"), (sent("web", "3.0.0"), "identifier"), (identified("web", "3.0.0", "d" * 40), "identifier"),
        (identified("web", "3.0.0", "C" * 40), "identifier"), (identified("web", "3.0.0", "c" * 40, more='"name":"db",'), "name"),
        (identified("web", "3.0.0", "c" * 40, more='"name":"web-3.0.0",'), "name"), (identified("db", "3.0.0", "c" * 40), "metadata"),
        (right.replace('"recipes":[]', '"recipes":{}'), "recipes"), (sent("web", "3.0.0", its_own="3.0.1"), "metadata"),
        (right.replace('"recipes":[]', '"recipes":{}').replace("c" * 40, "d" * 40), "recipes"),
    ):
        yield ("PUT", one, body, bad(field))
    for path in ("/we%20b/" + "c" * 40, "/web/" + "C" * 40, "/web/" + "c" * 39, "/web/" + "c" * 41, "/web/1.0.0"):
        yield ("PUT", BOOKS_OF + path, "{", NOT_JSON)
        yield ("PUT", BOOKS_OF + path, "{}", NOT_FOUND)
        yield ("GET", BOOKS_OF + path, "", NOT_FOUND)
        yield ("DELETE", BOOKS_OF + path, "", NOT_FOUND)
    yield ("GET", one, "", NOT_FOUND)
    yield ("DELETE", one, "", NOT_FOUND)
    for method in ("POST", "PUT", "DELETE"):
        yield (method, BOOKS_OF, "", NOT_ALLOWED)
    yield ("POST", one, right, NOT_ALLOWED)
    yield ("GET", BOOKS_OF + "/web", "", NOT_FOUND)


def files_that_artifacts_name():
    """A file goes with the last version or artifact that names it."""
    a, b = S + "/files/" + SUM_A, S + "/files/" + SUM_B
    version = S + "/cookbooks/web/1.0.0"
    yield ("PUT", version, sent("web", "1.0.0", SUM_A), (201, manifest("sigma", "web", "1.0.0", SUM_A)))
    yield ("DELETE", BOOKS_OF + "/web/" + ID_C, "", (200, artifact("sigma", "web", "1.0.0", ID_C, SUM_A)))
    yield ("GET", a, "", octets("a"))
    yield ("DELETE", version, "", (200, manifest("sigma", "web", "1.0.0", SUM_A)))
    yield ("GET", a, "", octets("a"))
    yield ("DELETE", BOOKS_OF + "/app/" + ID_B, "", (200, artifact("sigma", "app", "0.1.0", ID_B, SUM_B)))
    yield ("GET", b, "", NOT_FOUND)
    yield ("GET", BOOKS_OF + "/app/_acl", "", NOT_FOUND)
    yield ("GET", BOOKS_OF, "", artifacts("sigma", web=sorted([ID_A, ID_B])))


def the_worked_assignment():
    """A lock is assigned once the artifact that it names is there, and its content never changes."""
    prod, base = GROUPS_OF + "/prod", GROUPS_OF + "/prod/policies/base"
    named = lock("base", "1", "recipe[web]", web=("2.0.0", ID_C))
    yield ("GET", base, "", NOT_FOUND)
    yield ("GET", prod, "", NOT_FOUND)
    yield ("PUT", base, named, lacks_artifact("web", ID_C), by("ann"))
    yield ("GET", GROUPS_OF, "", (200, "{}"))
    yield ("PUT", BOOKS_OF + "/web/" + ID_C, identified("web", "2.0.0", ID_C), (201, artifact("sigma", "web", "2.0.0", ID_C)))
    yield ("PUT", base, named, (201, named), by("ann"))
    yield ("PUT", base, named, (200, named), by("ann"))
    yield ("PUT", base, lock("base", "1", "recipe[web]", default='{"a":1}', web=("2.0.0", ID_C)), (409, error("revision differs")))
    # the revision differs is told before an artifact that is missing
    yield ("PUT", base, lock("base", "1", web=("2.0.0", "d" * 40)), (409, error("revision differs")))
    for path, due in (
        (base, named), (POLICIES_OF + "/base/revisions/1", named), (POLICIES_OF + "/base", revisions("1")), (prod, assigns("sigma", "prod", base="1")),
    ):
        yield ("GET", path, "", (200, due), by("web1"))
    yield ("GET", POLICIES_OF, "", policies_listed("sigma", base=["1"]), by("web1"))
    yield ("GET", GROUPS_OF, "", (200, '{"prod":%s}' % assigns("sigma", "prod", base="1")), by("web1"))
    for path in (POLICIES_OF + "/base/_acl", prod + "/_acl"):
        yield ("GET", path, "", (200, acl(AU, AKU, AU, AU, A, ["ann"])))
    # the artifact may go: it is looked for when a lock is put
    yield ("DELETE", BOOKS_OF + "/web/" + ID_C, "", (200, artifact("sigma", "web", "2.0.0", ID_C)))
    yield ("GET", base, "", (200, named))
    yield ("PUT", base, named, lacks_artifact("web", ID_C))


def revisions_come():
    """Revisions are added and never replaced, and a lock is stored with all that it states."""
    base, added = POLICIES_OF + "/base", POLICIES_OF + "/base/revisions"
    two = lock("base", "two", "recipe[web]", web=("1.0.0", ID_A))
    yield ("POST", added, two, (201, two))
    yield ("POST", added, two, EXISTS)
    yield ("POST", added, lock("base", "two", web=("1.0.0", "d" * 40)), EXISTS)
    yield ("POST", added, lock("base", "3", web=("1.0.0", "d" * 40), app=("1.0.0", ID_B)), lacks_artifact("app", ID_B))
    yield ("POST", added, lock("base", "3", web=("1.0.0", "d" * 40)), lacks_artifact("web", "d" * 40))
    # a cookbook's identifier counts and its version doesn't
    yield ("POST", added, lock("base", "3", web=("9.9", ID_A)), (201, lock("base", "3", web=("9.9", ID_A))))
    yield ("GET", base, "", (200, revisions("1", "3", "two")))
    # what has a default is stored with it, items in their form, and what isn't listed is kept
    yield ("POST", added, '{"zz":[1],"run_list":["web","web::x@1.2"],"revision_id":"4","name":"base","cookbook_locks":{}}',
           (201, lock("base", "4", "recipe[web]", "recipe[web::x@1.2]")[:-1] + ',"zz":[1]}'))
    yield ("GET", added + "/4", "", (200, lock("base", "4", "recipe[web]", "recipe[web::x@1.2]")[:-1] + ',"zz":[1]}'))
    yield ("POST", POLICIES_OF + "/app/revisions", lock("app", "1"), (201, lock("app", "1")), by("ann"))
    yield ("GET", POLICIES_OF, "", policies_listed("sigma", app=["1"], base=["1", "3", "4", "two"]))
    yield ("GET", added + "/5", "", NOT_FOUND)
    yield ("GET", POLICIES_OF + "/none/revisions/1", "", NOT_FOUND)
    yield ("GET", POLICIES_OF + "/none", "", NOT_FOUND)
    yield ("GET", POLICIES_OF + "/none/_acl", "", NOT_FOUND)
    yield ("GET", POLICIES_OF + "/ba%20se", "", NOT_FOUND)
    yield ("GET", added + "/%20", "", NOT_FOUND)
    yield ("GET", added + "/" + "r" * 256, "", NOT_FOUND)


def locks_refuse():
    """What a lock is refused for, in either place that takes one: the first field of its table that hasn't its form."""
    whole = {
        "revision_id": '"9"', "name": '"base"', "run_list": "[]", "named_run_lists": "{}", "cookbook_locks": "{}",
        "default_attributes": "{}", "override_attributes": "{}", "solution_dependencies": "{}",
    }
    text = lambda fields: "{%s}" % ",".join('"%s":%s' % field for field in fields.items())
    without = lambda *names: text({name: its for name, its in whole.items() if name not in names})
    faults = [("[]", "revision_id"), ("null", "revision_id"), ("{}", "revision_id")]
    faults += [(without(name), name) for name in ("revision_id", "name", "run_list", "cookbook_locks")]
    faults += [(text({**whole, name: "7"}), name) for name in whole]
    faults += [
        (text({**whole, "name": '"app"'}), "name"), (text({**whole, "revision_id": '"a b"'}), "revision_id"),
        (text({**whole, "run_list": '["a b"]'}), "run_list"), (text({**whole, "named_run_lists": '{"x":["a b"]}'}), "named_run_lists"),
        (text({**whole, "cookbook_locks": '{"web":{"version":"1.0"}}'}), "cookbook_locks"),
        (text({**whole, "cookbook_locks": '{"web":{"identifier":"%s"}}' % ID_A}), "cookbook_locks"),
        (text({**whole, "cookbook_locks": '{"web":{"identifier":"x","version":"1.0"}}'}), "cookbook_locks"),
        (text({**whole, "name": "7", "run_list": "7"}), "name"), (text({**whole, "revision_id": "7", "name": "7"}), "revision_id"),
    ]
    for method, path in (("POST", POLICIES_OF + "/base/revisions"), ("PUT", GROUPS_OF + "/prod/policies/base")):
        yield (method, path, "", NOT_JSON)
        yield (method, path, "{", NOT_JSON)
        for body, field in faults:
            yield (method, path, body, bad(field))
        # the form of a lock comes before a permission
        yield (method, path, without("name"), bad("name"), by("web1"))
    # where a name in the path hasn't its form, the body is looked at for JSON alone
    for method, path in (("POST", POLICIES_OF + "/ba%20se/revisions"), ("PUT", GROUPS_OF + "/pr%20od/policies/base"), ("PUT", GROUPS_OF + "/prod/policies/ba%20se")):
        yield (method, path, "{", NOT_JSON)
        yield (method, path, "{}", NOT_FOUND)


def groups_assign():
    """A group assigns one revision of each policy, and stays when it assigns none."""
    prod, test = GROUPS_OF + "/prod", GROUPS_OF + "/test"
    two, app = lock("base", "two", "recipe[web]", web=("1.0.0", ID_A)), lock("app", "1")
    # another revision of the policy, which is there; of another policy; in another group
    yield ("PUT", prod + "/policies/base", two, (200, two))
    yield ("PUT", prod + "/policies/app", app, (201, app))
    yield ("PUT", test + "/policies/base", two, (201, two))
    yield ("GET", prod, "", (200, assigns("sigma", "prod", app="1", base="two")))
    yield ("GET", GROUPS_OF, "", (200, '{"prod":%s,"test":%s}' % (assigns("sigma", "prod", app="1", base="two"), assigns("sigma", "test", base="two"))))
    # an assignment goes, and its revision stays, and so does the group
    yield ("DELETE", prod + "/policies/app", "", (200, app))
    yield ("DELETE", prod + "/policies/app", "", NOT_FOUND)
    yield ("GET", prod + "/policies/app", "", NOT_FOUND)
    yield ("GET", POLICIES_OF + "/app/revisions/1", "", (200, app))
    yield ("DELETE", test + "/policies/base", "", (200, two))
    yield ("GET", test, "", (200, assigns("sigma", "test")))
    yield ("PUT", test + "/policies/base", two, (201, two))
    # a group goes, and what it assigned stays
    yield ("DELETE", test, "", (200, assigns("sigma", "test", base="two")))
    for method, path in (("GET", test), ("DELETE", test), ("GET", test + "/_acl"), ("GET", test + "/policies/base"), ("DELETE", test + "/policies/base")):
        yield (method, path, "", NOT_FOUND)
    yield ("GET", POLICIES_OF + "/base/revisions/two", "", (200, two))
    for path in ("/pr%20od", "/pr%20od/policies/base", "/prod/policies/ba%20se"):
        yield ("GET", GROUPS_OF + path, "", NOT_FOUND)
        yield ("DELETE", GROUPS_OF + path, "", NOT_FOUND)
    # methods that the paths haven't
    for method, path in (
        ("POST", POLICIES_OF), ("PUT", POLICIES_OF + "/base"), ("POST", POLICIES_OF + "/base"), ("GET", POLICIES_OF + "/base/revisions"),
        ("PUT", POLICIES_OF + "/base/revisions/1"), ("DELETE", POLICIES_OF + "/base/revisions/1"), ("POST", GROUPS_OF), ("PUT", prod), ("POST", prod + "/policies/base"),
    ):
        yield (method, path, "{}", NOT_ALLOWED)
    yield ("GET", prod + "/policies", "", NOT_FOUND)


def who_may_policies():
    """Users bring artifacts and locks, clients read them; of two permissions the first that is missing is told."""
    base, prod = POLICIES_OF + "/base", GROUPS_OF + "/prod"
    app = lock("app", "1")
    for row in (
        ("PUT", BOOKS_OF + "/db/" + ID_B, identified("db", "1.0.0", ID_B), missing("create")), ("PUT", BOOKS_OF + "/web/" + ID_C, identified("web", "1.0.0", ID_C), missing("update")),
        ("DELETE", BOOKS_OF + "/web/" + ID_A, "", missing("delete")), ("POST", POLICIES_OF + "/new/revisions", lock("new", "1"), missing("create")),
        ("POST", base + "/revisions", lock("base", "8"), missing("update")), ("DELETE", base, "", missing("delete")), ("DELETE", prod, "", missing("delete")),
        ("PUT", prod + "/policies/app", app, missing("update")), ("PUT", GROUPS_OF + "/new/policies/app", app, missing("create")),
        ("DELETE", prod + "/policies/base", "", missing("update")), ("GET", base + "/_acl", "", missing("grant")),
        # what isn't there is told before a permission, and a permission before what a lock is refused for
        ("DELETE", POLICIES_OF + "/none", "", NOT_FOUND), ("POST", base + "/revisions", lock("base", "1"), missing("update")),
    ):
        yield (*row, by("web1"))
    for method, path, body in (
        ("GET", BOOKS_OF, ""), ("GET", BOOKS_OF + "/web/" + ID_A, ""), ("GET", POLICIES_OF, ""), ("GET", base, ""), ("GET", base + "/revisions/1", ""),
        ("GET", GROUPS_OF, ""), ("GET", prod, ""), ("GET", prod + "/policies/base", ""), ("PUT", prod + "/policies/base", "{"), ("DELETE", base, ""),
    ):
        yield (method, path, body, UNKNOWN, by("eve"))
    # to assign, a caller may change the group and then the policy
    yield ("PUT", POLICIES_OF + "/app/_acl/update", permission("update", groups=A), (200, "{}"))
    yield ("PUT", prod + "/policies/app", app, missing("update"), by("ann"))
    yield ("PUT", GROUPS_OF + "/new/policies/app", app, missing("update"), by("ann"))
    yield ("PUT", S + "/containers/policy_groups/_acl/create", permission("create", groups=A), (200, "{}"))
    yield ("PUT", GROUPS_OF + "/new/policies/app", app, missing("create"), by("ann"))
    yield ("PUT", S + "/containers/policies/_acl/create", permission("create", groups=A), (200, "{}"))
    yield ("PUT", prod + "/policies/new", lock("new", "1"), missing("create"), by("ann"))
    yield ("PUT", prod + "/_acl/update", permission("update", groups=A), (200, "{}"))
    yield ("PUT", prod + "/policies/new", lock("new", "1"), missing("update"), by("ann"))
    yield ("PUT", prod + "/policies/app", app, (201, app))
    # each object's own list says who reads it, and the collection's who lists it
    yield ("PUT", base + "/_acl/read", permission("read", groups=A), (200, "{}"))
    yield ("PUT", prod + "/_acl/read", permission("read", groups=A), (200, "{}"))
    yield ("PUT", BOOKS_OF + "/web/_acl/read", permission("read", groups=A), (200, "{}"))
    for path in (base, base + "/revisions/1", prod, prod + "/policies/base", BOOKS_OF + "/web/" + ID_A):
        yield ("GET", path, "", missing("read"), by("ann"))
    yield ("GET", POLICIES_OF, "", policies_listed("sigma", app=["1"], base=["1", "3", "4", "two"]), by("ann"))


def policies_go():
    """A policy goes with its revisions, its list and its assignments, and the groups stay."""
    base, prod = POLICIES_OF + "/base", GROUPS_OF + "/prod"
    yield ("DELETE", base, "", (200, revisions("1", "3", "4", "two")))
    yield ("DELETE", base, "", NOT_FOUND)
    yield ("GET", base, "", NOT_FOUND)
    yield ("GET", base + "/_acl", "", NOT_FOUND)
    yield ("GET", base + "/revisions/1", "", NOT_FOUND)
    yield ("GET", prod + "/policies/base", "", NOT_FOUND)
    yield ("GET", prod, "", (200, assigns("sigma", "prod", app="1")))
    yield ("DELETE", POLICIES_OF + "/app", "", (200, revisions("1")))
    yield ("GET", prod, "", (200, assigns("sigma", "prod")))
    yield ("GET", POLICIES_OF, "", (200, "{}"))
    yield ("GET", GROUPS_OF, "", (200, '{"prod":%s}' % assigns("sigma", "prod")))
    # it may come again, with another content under the same revision
    yield ("PUT", prod + "/policies/base", lock("base", "1"), (201, lock("base", "1")))
    yield ("GET", base + "/_acl", "", (200, acl(A, AKU, AU, AU, A, ["pivotal"])))


def another_organisation_has_its_own():
    """Nothing of it shows in another organisation."""
    front = "/organizations/tau"
    yield ("POST", "/organizations", '{"name":"tau"}', uri(front))
    for collection in ("/cookbook_artifacts", "/policies", "/policy_groups"):
        yield ("GET", front + collection, "", (200, "{}"))
    yield ("PUT", front + "/policy_groups/prod/policies/base", lock("base", "1", web=("1.0.0", ID_A)), lacks_artifact("web", ID_A))
    yield ("PUT", front + "/cookbook_artifacts/web/" + ID_A, identified("web", "1.0.0", ID_A, SUM_A), lacking(SUM_A))
    yield ("PUT", front + "/policy_groups/prod/policies/base", lock("base", "1", default='{"tau":1}'), (201, lock("base", "1", default='{"tau":1}')))
    yield ("GET", GROUPS_OF + "/prod/policies/base", "", (200, lock("base", "1")))
    yield ("DELETE", front + "/policies/base", "", (200, revisions("1")))
    yield ("GET", GROUPS_OF + "/prod", "", (200, assigns("sigma", "prod", base="1")))


def policies():
    yield from artifacts_come()
    yield from artifacts_refuse()
    yield from files_that_artifacts_name()
    yield from the_worked_assignment()
    yield from revisions_come()
    yield from locks_refuse()
    yield from groups_assign()
    yield from who_may_policies()
    yield from policies_go()
    yield from another_organisation_has_its_own()
