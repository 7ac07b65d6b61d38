"""Rows on sandboxes, files and cookbook versions."""
import hashlib

from table.forms import *

# The MD5 of no bytes, of `a`, of `b` and of `abc` (RFC 1321, appendix A.5, but for `b`).
NONE, SUM_A, SUM_B = "d41d8cd98f00b204e9800998ecf8427e", "0cc175b9c0f1b6a831c399e269772661", "92eb5ffee6ae2fec3ad71c777531578f"
SUM_ABC = "900150983cd24fb0d6963f7d28e17f72"
E = "/organizations/epsilon"
COMPLETED = '{"is_completed":true}'


def octets(text):
    """200 with the bytes of a file."""
    return 200, text, "application/octet-stream"


def sandbox(org, number):
    """The id of the sandbox that an organisation makes as this one of its own."""
    return hashlib.md5(("%s\n%d" % (org, number)).encode()).hexdigest()


def asks(*sums):
    """The body that asks for a sandbox of these checksums."""
    return '{"checksums":{%s}}' % ",".join('"%s":null' % it for it in sums)


def begun(org, number, **needed):
    """The reply to a new sandbox: of each checksum, behind an `s`, whether it is still to be uploaded."""
    front, its = "/organizations/" + org, sandbox(org, number)
    sums = ",".join('"%s":{"needs_upload":%s,"url":"%s/files/%s"}' % (it[1:], str(needed[it]).lower(), front, it[1:]) for it in sorted(needed))
    return 201, '{"checksums":{%s},"sandbox_id":"%s","uri":"%s/sandboxes/%s"}' % (sums, its, front, its)


def committed(org, number, *sums):
    """The reply to a sandbox that is committed, with its checksums in order."""
    its = sandbox(org, number)
    return 200, '{"checksums":%s,"guid":"%s","is_completed":true,"name":"%s"}' % (texts(sums), its, its)


def lacking(*sums):
    return 400, error("missing checksums: " + ", ".join(sums))


def sandboxes_and_files():
    """How files come to an organisation, and who reads them."""
    boxes, files = E + "/sandboxes", E + "/files/"
    box = lambda number: boxes + "/" + sandbox("epsilon", number)
    yield ("POST", boxes, asks(NONE), NOT_FOUND)
    yield ("POST", "/organizations", '{"name":"epsilon"}', uri(E))
    yield ("POST", E + "/users", '{"username":"ann"}', uri(E + "/users/ann"))
    yield ("POST", E + "/clients", '{"name":"web1"}', uri(E + "/clients/web1"))
    # the life of a sandbox
    yield ("GET", files + NONE, "", NOT_FOUND)
    yield ("PUT", files + NONE, "", NOT_FOUND)
    yield ("POST", boxes, asks(NONE), begun("epsilon", 1, **{"s" + NONE: True}), by("ann"))
    yield ("PUT", box(1), COMPLETED, lacking(NONE))
    yield ("PUT", files + NONE, "a", (400, error("digest is %s, not %s" % (SUM_A, NONE))))
    yield ("PUT", box(1), COMPLETED, lacking(NONE))
    yield ("PUT", files + NONE, "", (200, "{}"), by("ann"))
    yield ("GET", files + NONE, "", NOT_FOUND)
    yield ("PUT", box(1), COMPLETED, committed("epsilon", 1, NONE), by("ann"))
    yield ("GET", files + NONE, "", octets(""))
    yield ("PUT", box(1), COMPLETED, NOT_FOUND)
    yield ("PUT", files + NONE, "", NOT_FOUND)
    yield ("PUT", files + SUM_ABC, "abc", NOT_FOUND)
    # the same sandbox in another organisation, which has the file to upload itself
    yield ("POST", B + "/sandboxes", asks(NONE), begun("beta", 1, **{"s" + NONE: True}))
    yield ("GET", B + "/files/" + NONE, "", NOT_FOUND)
    yield ("PUT", E + "/sandboxes/" + sandbox("beta", 1), COMPLETED, NOT_FOUND)
    yield ("PUT", B + "/files/" + NONE, "", (200, "{}"))
    yield ("PUT", B + "/sandboxes/" + sandbox("beta", 1), COMPLETED, committed("beta", 1, NONE))
    # what is there needs no upload, and what is missing is told in byte order
    yield ("POST", boxes, asks(NONE, SUM_A), begun("epsilon", 2, **{"s" + NONE: False, "s" + SUM_A: True}))
    yield ("PUT", box(2), COMPLETED, lacking(SUM_A))
    yield ("PUT", files + SUM_A, "a", (200, "{}"))
    yield ("PUT", box(2), COMPLETED, committed("epsilon", 2, SUM_A, NONE))
    yield ("GET", files + SUM_A, "", octets("a"), by("web1"))
    yield ("POST", boxes, asks(SUM_B, SUM_ABC), begun("epsilon", 3, **{"s" + SUM_ABC: True, "s" + SUM_B: True}))
    yield ("PUT", box(3), COMPLETED, lacking(SUM_ABC, SUM_B))
    # a checksum that two sandboxes list comes once, and is committed with the first of them
    yield ("POST", boxes, asks(SUM_ABC), begun("epsilon", 4, **{"s" + SUM_ABC: True}))
    yield ("PUT", files + SUM_ABC, "abc", (200, "{}"))
    yield ("POST", boxes, asks(SUM_ABC), begun("epsilon", 5, **{"s" + SUM_ABC: True}))
    yield ("PUT", box(3), COMPLETED, lacking(SUM_B))
    yield ("GET", files + SUM_ABC, "", NOT_FOUND)
    yield ("PUT", box(4), COMPLETED, committed("epsilon", 4, SUM_ABC))
    yield ("GET", files + SUM_ABC, "", octets("abc"))
    yield ("PUT", files + SUM_ABC, "ab", (400, error("digest is 187ef4436122d1cc2f40dc2b92f0eba0, not " + SUM_ABC)))
    yield ("PUT", files + SUM_ABC, "abc", (200, "{}"))
    yield ("PUT", files + SUM_B, "b", (200, "{}"))
    yield ("PUT", box(3), COMPLETED, committed("epsilon", 3, SUM_ABC, SUM_B))
    yield ("PUT", box(5), COMPLETED, committed("epsilon", 5, SUM_ABC))
    yield ("PUT", files + SUM_B, "b", NOT_FOUND)
    # a sandbox of nothing, of what stands under values that aren't looked at, and of one checksum twice
    yield ("POST", boxes, asks(), begun("epsilon", 6))
    yield ("PUT", box(6), COMPLETED, committed("epsilon", 6))
    yield ("POST", boxes, '{"more":0,"checksums":{"%s":[1],"%s":{}}}' % (SUM_A, SUM_A), begun("epsilon", 7, **{"s" + SUM_A: False}))
    # bodies that haven't their form
    for body in ('{}', '[]', '{"checksums":[]}', '{"checksums":null}', '{"checksums":{"a":null}}', asks(NONE.upper()), asks(NONE + "0"), asks(NONE, "x")):
        yield ("POST", boxes, body, bad("checksums"))
    for body in ('{}', '[]', 'true', '{"is_completed":false}', '{"is_completed":"true"}', '{"is_completed":null}', '{"is_completed":1}'):
        yield ("PUT", box(7), body, bad("is_completed"))
    for method, path in (("POST", boxes), ("PUT", box(7)), ("PUT", boxes + "/nowhere")):
        yield (method, path, "", NOT_JSON)
        yield (method, path, "{", NOT_JSON)
    # of an id without a checksum's form the body is looked at in full
    yield ("PUT", boxes + "/nowhere", "{}", bad("is_completed"))
    yield ("PUT", boxes + "/nowhere", COMPLETED, NOT_FOUND)
    yield ("PUT", boxes + "/" + NONE, COMPLETED, NOT_FOUND)
    yield ("GET", files + "nowhere", "", NOT_FOUND)
    yield ("PUT", files + "nowhere", "x", NOT_FOUND)
    yield ("PUT", files + NONE.upper(), "", NOT_FOUND)
    # methods that the paths haven't
    for method in ("GET", "PUT", "DELETE"):
        yield (method, boxes, "", NOT_ALLOWED)
    for method in ("GET", "POST", "DELETE"):
        yield (method, box(7), "", NOT_ALLOWED)
    for method in ("POST", "DELETE"):
        yield (method, files + NONE, "", NOT_ALLOWED)
    # who may: a client reads files and brings none
    yield ("POST", boxes, asks(SUM_B), missing("create"), by("web1"))
    yield ("POST", boxes, asks("x"), bad("checksums"), by("web1"))
    yield ("PUT", box(7), COMPLETED, missing("update"), by("web1"))
    yield ("PUT", box(6), COMPLETED, NOT_FOUND, by("web1"))
    yield ("PUT", files + SUM_A, "b", missing("create"), by("web1"))
    yield ("PUT", files + SUM_B, "b", NOT_FOUND, by("web1"))
    yield ("PUT", box(7), COMPLETED, committed("epsilon", 7, SUM_A))
    for row in (("POST", boxes, asks(NONE)), ("PUT", box(6), COMPLETED), ("PUT", files + NONE, ""), ("GET", files + NONE, "")):
        yield (*row, UNKNOWN, by("eve"))
    yield ("PUT", E + "/groups/clients", '{"actors":{"clients":[]}}', (200, group("epsilon", "clients")))
    yield ("GET", files + NONE, "", missing("read"), by("web1"))
    yield ("GET", files + SUM_B.replace("9", "8"), "", NOT_FOUND, by("web1"))
    yield ("GET", files + NONE, "", octets(""), by("ann"))


Z = "/organizations/zeta"
LISTS = ("recipes", "definitions", "libraries", "attributes", "files", "templates", "resources", "providers", "root_files")
FROZEN = (409, error("frozen"))


def recipe(*sums):
    """The entries of a manifest that name these files."""
    return [(place, its) for place, its in enumerate(sums)]


def entries(files, org=None):
    """Entries as they are sent, or, with an organisation, as its replies show them."""
    return "[%s]" % ",".join(
        '{"checksum":"%s","name":"r%d.rb","path":"recipes/r%d.rb","specificity":"default"%s}'
        % (its, place, place, ',"url":"/organizations/%s/files/%s"' % (org, its) if org else "")
        for place, its in files
    )


def constraints(needs):
    """Names, each with its constraint, in the order in which they are given."""
    return "{%s}" % ",".join('"%s":"%s"' % need for need in needs.items())


def sent(cookbook, version, *sums, more="", its_own=None, needs=None):
    """The body that puts a version whose recipes are these files, and which needs these cookbooks."""
    dependencies = '"dependencies":%s,' % constraints(needs) if needs is not None else ""
    metadata = '{%s"name":"%s","version":"%s"}' % (dependencies, cookbook, version)
    return '{%s"metadata":%s,"recipes":%s,"version":"%s"}' % (more, metadata, entries(recipe(*sums)), its_own or version)


def in_order(by_name):
    """The same in the byte order of the names."""
    return {name: by_name[name] for name in sorted(by_name)}


def manifest(org, cookbook, version, *sums, frozen=False, needs={}):
    """A version as a reply shows it."""
    fields = {name: "[]" for name in LISTS}
    fields.update({
        "chef_type": '"cookbook_version"', "cookbook_name": '"%s"' % cookbook, "frozen?": str(frozen).lower(),
        "json_class": '"Chef::CookbookVersion"', "name": '"%s-%s"' % (cookbook, version), "version": '"%s"' % version,
        "metadata": '{"dependencies":%s,"name":"%s","version":"%s"}' % (constraints(in_order(needs)), cookbook, version),
        "recipes": entries(recipe(*sums), org),
    })
    return "{%s}" % ",".join('"%s":%s' % (key, fields[key]) for key in sorted(fields))


def listed(org, **cookbooks):
    """The listing of these cookbooks, each with these versions."""
    front = "/organizations/%s/cookbooks/" % org
    return 200, "{%s}" % ",".join(
        '"%s":{"url":"%s","versions":[%s]}'
        % (name, front + name, ",".join('{"url":"%s%s/%s","version":"%s"}' % (front, name, its, its) for its in versions))
        for name, versions in cookbooks.items()
    )


def uploaded(org, number, *files):
    """Files are brought, in the sandbox that is this one of the organisation's own."""
    front = "/organizations/" + org
    sums = sorted(hashlib.md5(text.encode()).hexdigest() for text in files)
    yield ("POST", front + "/sandboxes", asks(*sums), begun(org, number, **{"s" + its: True for its in sums}))
    for text in files:
        yield ("PUT", front + "/files/" + hashlib.md5(text.encode()).hexdigest(), text, (200, "{}"))
    yield ("PUT", front + "/sandboxes/" + sandbox(org, number), COMPLETED, committed(org, number, *sums))


def a_version_comes():
    """A version comes once the files that it names are there, and is read back."""
    books, web = Z + "/cookbooks", Z + "/cookbooks/web"
    yield ("GET", books, "", NOT_FOUND)
    yield ("POST", "/organizations", '{"name":"zeta"}', uri(Z))
    yield ("POST", Z + "/users", '{"username":"ann"}', uri(Z + "/users/ann"))
    yield ("POST", Z + "/clients", '{"name":"web1"}', uri(Z + "/clients/web1"))
    yield ("GET", books, "", (200, "{}"))
    for path in ("/web", "/web/1.0.0", "/web/_latest", "/web/_acl", "/we%20b", "/we%20b/1.0.0", "/web/x"):
        yield ("GET", books + path, "", NOT_FOUND)
    yield ("DELETE", web + "/1.0.0", "", NOT_FOUND)
    # a file that isn't there, that no commit has taken, or that another organisation has
    yield ("PUT", web + "/1.0.0", sent("web", "1.0.0", SUM_A), lacking(SUM_A))
    yield ("PUT", web + "/1.0.0", sent("web", "1.0.0", SUM_B, SUM_A, NONE), lacking(SUM_A, SUM_B, NONE))
    yield ("POST", Z + "/sandboxes", asks(SUM_A), begun("zeta", 1, **{"s" + SUM_A: True}))
    yield ("PUT", Z + "/files/" + SUM_A, "a", (200, "{}"))
    yield ("PUT", web + "/1.0.0", sent("web", "1.0.0", SUM_A), lacking(SUM_A))
    yield ("GET", books, "", (200, "{}"))
    yield ("PUT", Z + "/sandboxes/" + sandbox("zeta", 1), COMPLETED, committed("zeta", 1, SUM_A))
    yield ("PUT", web + "/1.0.0", sent("web", "1.0.0", SUM_A), (201, manifest("zeta", "web", "1.0.0", SUM_A)), by("ann"))
    # it is read by its number, however that is written, and as the greatest
    for version in ("1.0.0", "1.0", "01.0.00", "_latest"):
        yield ("GET", web + "/" + version, "", (200, manifest("zeta", "web", "1.0.0", SUM_A)), by("web1"))
    for version in ("1", "1.0.1", "1.0.0.0", "v1.0.0", "1.x", "_all"):
        yield ("GET", web + "/" + version, "", NOT_FOUND)
    yield ("GET", web, "", listed("zeta", web=["1.0.0"]), by("web1"))
    yield ("GET", books, "", listed("zeta", web=["1.0.0"]), by("web1"))
    yield ("GET", web + "/_acl", "", (200, acl(AU, AKU, AU, AU, A, ["ann"])))
    # put again, it is replaced
    yield ("PUT", web + "/1.0", sent("web", "1.0", SUM_A), (200, manifest("zeta", "web", "1.0.0", SUM_A).replace('"version":"1.0.0"}', '"version":"1.0"}', 1)))
    yield ("PUT", web + "/1.0.0", sent("web", "1.0.0", SUM_A, its_own="1.0", more='"cookbook_name":"web","name":"web-1.0.0","more":7,').replace('"specificity"', '"url":"x","specificity"'),
           (200, manifest("zeta", "web", "1.0.0", SUM_A).replace('"name":"web-1.0.0"', '"more":7,"name":"web-1.0.0"')))
    yield ("PUT", web + "/1.0.0", sent("web", "1.0.0", SUM_A), (200, manifest("zeta", "web", "1.0.0", SUM_A)))


def versions_in_order():
    """Versions are listed by their numbers, the greatest first."""
    books, web = Z + "/cookbooks", Z + "/cookbooks/web"
    for version in ("1.10.0", "1.9.0"):
        yield ("PUT", web + "/" + version, sent("web", version), (201, manifest("zeta", "web", version)))
    yield ("PUT", books + "/db/0.1.0", sent("db", "0.1.0"), (201, manifest("zeta", "db", "0.1.0")))
    yield ("GET", web + "/_latest", "", (200, manifest("zeta", "web", "1.10.0")))
    whole = ["1.10.0", "1.9.0", "1.0.0"]
    yield ("GET", books, "", listed("zeta", db=["0.1.0"], web=["1.10.0"]))
    yield ("GET", web, "", listed("zeta", web=whole))
    yield ("GET", web + "?num_versions=1", "", listed("zeta", web=whole))
    for text, count in (("0", 0), ("1", 1), ("2", 2), ("3", 3), ("4", 4), ("all", 3), ("002", 2), ("000", 0), ("9" * 40, 3), ("18446744073709551616", 3), ("2&num_versions=x", 2), ("%32", 2)):
        yield ("GET", books + "?num_versions=" + text, "", listed("zeta", db=["0.1.0"][:count], web=whole[:count]))
    for text in ("x", "", "-1", "+2", "1.0", "ALL", "0x2", "x&num_versions=2"):
        yield ("GET", books + "?num_versions=" + text, "", (400, error("bad parameter num_versions")))
    yield ("GET", books + "?num_version=x", "", listed("zeta", db=["0.1.0"], web=["1.10.0"]))


def frozen_and_forced():
    """A frozen version is replaced only by force, and stays frozen."""
    two, freeze = Z + "/cookbooks/web/2.0.0", '"frozen?":true,'
    kept = manifest("zeta", "web", "2.0.0", SUM_A, frozen=True)
    yield ("PUT", two, sent("web", "2.0.0", SUM_A, more=freeze), (201, kept))
    yield ("PUT", two, sent("web", "2.0.0"), FROZEN)
    yield ("PUT", two, sent("web", "2.0.0", SUM_A, more=freeze), FROZEN)
    yield ("PUT", two, sent("web", "2.0.0", SUM_B), FROZEN)
    for text in ("false", "1", "TRUE", "", "truer", "false&force=true"):
        yield ("PUT", two + "?force=" + text, sent("web", "2.0.0"), FROZEN)
    yield ("PUT", two + "?force=true", sent("web", "2.0.0", SUM_B), lacking(SUM_B))
    yield ("GET", two, "", (200, kept))
    yield ("PUT", two + "?force=true", sent("web", "2.0.0"), (200, manifest("zeta", "web", "2.0.0", frozen=True)))
    yield ("PUT", two, sent("web", "2.0.0"), FROZEN)
    yield ("PUT", two + "?force=true", sent("web", "2.0.0", SUM_A, more='"frozen?":false,'), (200, kept))
    yield ("PUT", two, "{", NOT_JSON)
    yield ("PUT", two, "{}", bad("version"))
    yield ("DELETE", two, "", (200, kept))
    yield ("GET", two, "", NOT_FOUND)
    yield ("PUT", two, sent("web", "2.0.0"), (201, manifest("zeta", "web", "2.0.0")))
    yield ("PUT", two, sent("web", "2.0.0", more=freeze), (200, manifest("zeta", "web", "2.0.0", frozen=True)))
    yield ("PUT", two, sent("web", "2.0.0"), FROZEN)
    yield ("DELETE", two + "?force=true", "", (200, manifest("zeta", "web", "2.0.0", frozen=True)))


def files_that_versions_name():
    """A file goes with the last version that names it, and one that was never named stays."""
    books, web, a = Z + "/cookbooks", Z + "/cookbooks/web", Z + "/files/" + SUM_A
    yield from uploaded("zeta", 2, "b", "abc")
    yield ("PUT", web + "/1.9.0", sent("web", "1.9.0", SUM_A, SUM_B), (200, manifest("zeta", "web", "1.9.0", SUM_A, SUM_B)))
    # two versions name it, and then one
    yield ("DELETE", web + "/1.0.0", "", (200, manifest("zeta", "web", "1.0.0", SUM_A)))
    yield ("GET", a, "", octets("a"))
    yield ("PUT", books + "/db/0.1.0", sent("db", "0.1.0", SUM_A), (200, manifest("zeta", "db", "0.1.0", SUM_A)))
    yield ("PUT", web + "/1.9.0", sent("web", "1.9.0", SUM_B), (200, manifest("zeta", "web", "1.9.0", SUM_B)))
    yield ("GET", a, "", octets("a"))
    # what replaces the last version that names it leaves it out
    yield ("PUT", books + "/db/0.1.0", sent("db", "0.1.0"), (200, manifest("zeta", "db", "0.1.0")))
    yield ("GET", a, "", NOT_FOUND)
    yield ("PUT", books + "/db/0.1.0", sent("db", "0.1.0", SUM_A), lacking(SUM_A))
    yield ("POST", Z + "/sandboxes", asks(SUM_A, SUM_B), begun("zeta", 3, **{"s" + SUM_A: True, "s" + SUM_B: False}))
    # and what removes the last that names it drops it
    yield ("DELETE", web + "/1.9.0", "", (200, manifest("zeta", "web", "1.9.0", SUM_B)))
    yield ("GET", Z + "/files/" + SUM_B, "", NOT_FOUND)
    yield ("GET", Z + "/files/" + SUM_ABC, "", octets("abc"))
    # nothing of it shows in another organisation, which has these files of its own
    yield ("GET", E + "/files/" + SUM_A, "", octets("a"))
    yield ("GET", B + "/cookbooks", "", (200, "{}"))
    yield ("PUT", B + "/cookbooks/web/1.0.0", sent("web", "1.0.0", SUM_ABC), lacking(SUM_ABC))
    yield ("PUT", B + "/cookbooks/web/1.0.0", sent("web", "1.0.0", NONE), (201, manifest("beta", "web", "1.0.0", NONE)))
    yield ("GET", Z + "/cookbooks/web/1.0.0", "", NOT_FOUND)
    yield ("DELETE", B + "/cookbooks/web/1.0.0", "", (200, manifest("beta", "web", "1.0.0", NONE)))
    yield ("GET", B + "/files/" + NONE, "", NOT_FOUND)
    yield ("GET", E + "/files/" + NONE, "", octets(""))


def refused_versions():
    """What a PUT of a version refuses, and paths and methods that aren't there."""
    books, one = Z + "/cookbooks", Z + "/cookbooks/web/3.0.0"
    yield ("PUT", one, "", NOT_JSON)
    yield ("PUT", one, "{", NOT_JSON)
    right = sent("web", "3.0.0")
    for body, field in (
        ("[]", "cookbook_name"), ("{}", "version"), ('{"version":"3"}', "version"), ('{"version":"3.0"}', "metadata"),
        ('{"metadata":{},"version":"3.0.0"}', "metadata"), ('{"metadata":[],"version":"3.0.0"}', "metadata"),
        (sent("db", "3.0.0"), "metadata"), (sent("web", "3.0.1", its_own="3.0.0"), "metadata"), (sent("web", "3", its_own="3.0.0"), "metadata"),
        (sent("web", "3.0.0", more='"cookbook_name":"db",'), "cookbook_name"), (sent("web", "3.0.0", more='"name":"web",'), "name"),
        (sent("web", "3.0.0", its_own="3.0.1"), "version"), (sent("web", "3.0.0", more='"chef_type":"role",'), "chef_type"),
        (sent("web", "3.0.0", more='"json_class":"x",'), "json_class"), (sent("web", "3.0.0", more='"frozen?":"true",'), "frozen?"),
        (right.replace('"recipes":[]', '"recipes":{}'), "recipes"), (right.replace('"recipes":[]', '"recipes":[{}]'), "recipes"),
        (right.replace('"recipes":[]', '"files":[{"name":"a","path":"a","checksum":"A"}]'), "files"),
        (sent("web", "3.0.0", SUM_ABC, more='"files":[{"name":"a","path":"recipes/r0.rb","checksum":"%s"}],' % SUM_ABC), "files"),
        (right.replace('"name":"web"', '"dependencies":{"db":"x"},"name":"web"'), "metadata"),
    ):
        yield ("PUT", one, body, bad(field))
    # where the path has no version's or no name's form, the body is looked at for JSON alone
    for path in ("/web/_latest", "/web/3", "/web/3.0.0.0", "/web/18446744073709551616.0", "/we%20b/3.0.0", "/web/x"):
        yield ("PUT", books + path, "{", NOT_JSON)
        yield ("PUT", books + path, right, NOT_FOUND)
        yield ("DELETE", books + path, "", NOT_FOUND)
    yield ("GET", one, "", NOT_FOUND)
    for method in ("POST", "PUT", "DELETE"):
        yield (method, books, "", NOT_ALLOWED)
        yield (method, books + "/web", "", NOT_ALLOWED)
    yield ("POST", one, right, NOT_ALLOWED)


def who_may_versions():
    """Users bring versions, clients read them, and a cookbook's own list decides once it is there."""
    books, web = Z + "/cookbooks", Z + "/cookbooks/web"
    yield ("PUT", books + "/app/1.0.0", sent("app", "1.0.0"), missing("create"), by("web1"))
    yield ("PUT", books + "/app/1.0.0", "{}", bad("version"), by("web1"))
    yield ("PUT", books + "/app/1.0.0", sent("app", "1.0.0", SUM_A), missing("create"), by("web1"))
    yield ("PUT", web + "/1.10.0", sent("web", "1.10.0"), missing("update"), by("web1"))
    yield ("DELETE", web + "/1.10.0", "", missing("delete"), by("web1"))
    yield ("DELETE", web + "/9.9.9", "", NOT_FOUND, by("web1"))
    yield ("GET", web + "/_acl", "", missing("grant"), by("web1"))
    for row in (("GET", books, ""), ("GET", web, ""), ("GET", web + "/1.10.0", ""), ("PUT", web + "/1.10.0", sent("web", "1.10.0")), ("DELETE", web + "/1.10.0", "")):
        yield (*row, UNKNOWN, by("eve"))
    yield ("PUT", web + "/_acl/read", permission("read", groups=A), (200, "{}"))
    yield ("GET", web, "", missing("read"), by("web1"))
    yield ("GET", web + "/1.10.0", "", missing("read"), by("ann"))
    yield ("GET", web + "/9.9.9", "", NOT_FOUND, by("ann"))
    yield ("GET", books, "", listed("zeta", db=["0.1.0"], web=["1.10.0"]), by("ann"))
    yield ("GET", books + "/db/0.1.0", "", (200, manifest("zeta", "db", "0.1.0")), by("ann"))
    # the list goes with the last version, and a new one comes with the next first
    yield ("DELETE", web + "/1.10.0", "", (200, manifest("zeta", "web", "1.10.0")))
    yield ("GET", web + "/_acl", "", NOT_FOUND)
    yield ("GET", web, "", NOT_FOUND)
    yield ("GET", books, "", listed("zeta", db=["0.1.0"]))
    yield ("PUT", web + "/1.0.0", sent("web", "1.0.0"), (201, manifest("zeta", "web", "1.0.0")))
    yield ("GET", web + "/_acl", "", (200, acl(AU, AKU, AU, AU, A, ["pivotal"])))
    yield ("GET", web, "", listed("zeta", web=["1.0.0"]), by("web1"))


def cookbook_versions():
    yield from a_version_comes()
    yield from versions_in_order()
    yield from frozen_and_forced()
    yield from files_that_versions_name()
    yield from refused_versions()
    yield from who_may_versions()
