"""Rows on who may do what, in three organisations of their own."""
from table.forms import *

G, D, T = "/organizations/gamma", "/organizations/delta", "/organizations/upsilon"

# the list with which each container starts
STARTING = {
    "clients": acl(A, AU, A, AU, A),
    "containers": acl(A, AU, A, A, A),
    "cookbook_artifacts": acl(AU, AKU, AU, AU, A),
    "cookbooks": acl(AU, AKU, AU, AU, A),
    "data": acl(AU, AKU, AU, AU, A),
    "environments": acl(AU, AKU, AU, AU, A),
    "groups": acl(A, AU, A, A, A),
    "nodes": acl(AKU, AKU, AU, AU, A),
    "policies": acl(AU, AKU, AU, AU, A),
    "policy_groups": acl(AU, AKU, AU, AU, A),
    "roles": acl(AU, AKU, AU, AU, A),
    "sandboxes": acl(AU, AU, AU, A, A),
}


def starts():
    """What a new organisation has: groups without members, containers, and a list for each."""
    yield ("POST", "/organizations", '{"name":"gamma"}', uri(G))
    names = ["admins", "billing-admins", "clients", "users"]
    yield ("GET", G + "/groups", "", (200, "{%s}" % ",".join('"%s":"%s/groups/%s"' % (n, G, n) for n in names)))
    for name in names:
        yield ("GET", G + "/groups/" + name, "", (200, group("gamma", name)))
        yield ("GET", G + "/groups/%s/_acl" % name, "", (200, STARTING["groups"]))
    yield ("GET", G + "/users", "", (200, "[]"))
    yield ("GET", G + "/clients", "", (200, "{}"))
    yield ("GET", G + "/containers", "", (200, "{%s}" % ",".join('"%s":"%s/containers/%s"' % (n, G, n) for n in STARTING)))
    for name, due in STARTING.items():
        yield ("GET", G + "/containers/" + name, "", (200, '{"containername":"%s","containerpath":"%s"}' % (name, name)))
        yield ("GET", G + "/containers/%s/_acl" % name, "", (200, due))
    yield ("GET", G + "/environments/_default/_acl", "", (200, STARTING["environments"]))
    yield ("GET", G + "/containers/none", "", NOT_FOUND)
    yield ("GET", G + "/containers/none/_acl", "", NOT_FOUND)
    yield ("GET", G + "/nodes/none/_acl", "", NOT_FOUND)
    yield ("GET", G + "/cookbooks/web/_acl", "", NOT_FOUND)
    yield ("GET", G + "/policy_groups/prod/_acl", "", NOT_FOUND)
    yield ("POST", G + "/containers", "{}", NOT_ALLOWED)


def a_client_and_a_user():
    """A client makes a node and may remove that one alone; a user is let into `admins` and gives herself away."""
    yield ("POST", G + "/clients", '{"name":"c1"}', uri(G + "/clients/c1"))
    yield ("GET", G + "/groups/clients", "", (200, group("gamma", "clients", clients=["c1"])))
    yield ("GET", G + "/clients/c1/_acl", "", (200, acl(A, AU, A, AU, A, ["pivotal"])))
    yield ("POST", G + "/nodes", '{"name":"n1"}', uri(G + "/nodes/n1"))
    yield ("DELETE", G + "/nodes/n1", "", missing("delete"), by("c1"))
    yield ("GET", G + "/nodes/n1", "", (200, node("n1")), by("c1"))
    yield ("PUT", G + "/nodes/n1", "{}", missing("update"), by("c1"))
    yield ("POST", G + "/nodes", '{"name":"n2"}', uri(G + "/nodes/n2"), by("c1"))
    yield ("GET", G + "/nodes/n2/_acl", "", (200, acl(AKU, AKU, AU, AU, A, ["c1"])), by("c1"))
    yield ("GET", G + "/nodes/n1/_acl", "", missing("grant"), by("c1"))
    yield ("GET", G + "/containers/nodes/_acl", "", (200, STARTING["nodes"]))
    yield ("DELETE", G + "/nodes/n2", "", (200, node("n2")), by("c1"))
    yield ("GET", G + "/nodes/n1", "", UNKNOWN, by("c9"))
    yield ("GET", G, "", (200, '{"name":"gamma"}'), by("c1"))
    yield ("POST", G + "/roles", '{"name":"r"}', missing("create"), by("c1"))
    yield ("GET", G + "/roles", "", (200, "{}"), by("c1"))
    yield ("GET", G + "/clients", "", missing("read"), by("c1"))
    yield ("GET", G + "/groups/users", "", missing("read"), by("c1"))
    yield ("GET", G + "/users", "", missing("read"), by("c1"))
    # the form and the object come before the permission, and what the route refuses behind it
    yield ("PUT", G + "/nodes/n1", '{"normal":1}', bad("normal"), by("c1"))
    yield ("DELETE", G + "/nodes/none", "", NOT_FOUND, by("c1"))
    yield ("DELETE", G + "/environments/_default", "", missing("delete"), by("c1"))
    yield ("POST", G + "/nodes", '{"name":"n1"}', EXISTS, by("c1"))
    yield ("DELETE", G + "/groups/users", "", missing("delete"), by("c1"))
    # ann
    yield ("POST", G + "/users", '{"username":"ann"}', uri(G + "/users/ann"))
    yield ("GET", G + "/users", "", (200, '[{"user":{"username":"ann"}}]'), by("ann"))
    yield ("GET", G + "/users/ann", "", (200, '{"username":"ann"}'), by("ann"))
    yield ("GET", G + "/groups/users", "", (200, group("gamma", "users", users=["ann"])), by("ann"))
    yield ("GET", "/organizations", "", missing("read"), by("ann"))
    yield ("GET", G + "/containers/nodes/_acl", "", missing("grant"), by("ann"))
    yield ("PUT", G + "/containers/nodes/_acl/grant", permission("grant"), missing("grant"), by("ann"))
    yield ("PUT", G + "/groups/admins", '{"actors":{"users":["ann"]}}', (200, group("gamma", "admins", users=["ann"])))
    yield ("PUT", G + "/containers/nodes/_acl/grant", permission("grant"), (200, "{}"), by("ann"))
    yield ("PUT", G + "/containers/nodes/_acl/grant", permission("grant"), missing("grant"), by("ann"))
    yield ("PUT", G + "/containers/nodes/_acl/grant", permission("grant", (), A), (200, "{}"))
    yield ("GET", G + "/containers/nodes/_acl", "", (200, STARTING["nodes"]), by("ann"))
    # names that are taken, and bodies without their form
    yield ("POST", G + "/users", '{"username":"ann"}', EXISTS)
    yield ("POST", G + "/users", '{"username":"c1"}', EXISTS)
    yield ("POST", G + "/users", '{"username":"pivotal"}', EXISTS)
    yield ("POST", G + "/clients", '{"name":"ann"}', EXISTS)
    yield ("POST", G + "/users", '{"username":"a b"}', bad("username"))
    yield ("POST", G + "/users", '{"name":"bob"}', bad("username"))
    yield ("POST", G + "/users", "[]", bad("username"))
    yield ("POST", G + "/users", "{", NOT_JSON)
    yield ("GET", G + "/users/bob", "", NOT_FOUND)
    yield ("GET", G + "/users/c1", "", NOT_FOUND)
    yield ("PUT", G + "/users/ann", "{}", NOT_ALLOWED)


def groups_and_lists():
    """Groups come, change and go; a list names only who is there."""
    yield ("POST", G + "/groups", '{"groupname":"ops","actors":{"users":["ann"]}}', uri(G + "/groups/ops"))
    yield ("GET", G + "/groups/ops", "", (200, group("gamma", "ops")))
    yield ("GET", G + "/groups/ops/_acl", "", (200, acl(A, AU, A, A, A, ["pivotal"])))
    yield ("POST", G + "/groups", '{"name":"ops"}', EXISTS)
    yield ("POST", G + "/groups", "{}", bad("groupname"))
    yield ("POST", G + "/groups", '{"groupname":"a b"}', bad("groupname"))
    yield ("POST", G + "/groups", '{"groupname":"x"}', missing("create"), by("c1"))
    yield ("PUT", G + "/groups/ops", '{"actors":{"users":["zed","ann"],"clients":["c9"],"groups":["none"]}}', bad("users"))
    yield ("PUT", G + "/groups/ops", '{"actors":{"users":["ann"],"clients":["c9"],"groups":["none"]}}', bad("clients"))
    yield ("PUT", G + "/groups/ops", '{"actors":{"users":["ann"],"clients":["c1"],"groups":["none"]}}', bad("groups"))
    yield ("PUT", G + "/groups/ops", '{"actors":{"users":["pivotal"]}}', bad("users"))
    yield ("PUT", G + "/groups/ops", '{"actors":{"users":["c1"]}}', bad("users"))
    yield ("PUT", G + "/groups/ops", '{"actors":{"users":[1]}}', bad("actors"))
    yield ("PUT", G + "/groups/ops", '{"actors":[]}', bad("actors"))
    yield ("PUT", G + "/groups/ops", '{"groupname":"dev"}', bad("groupname"))
    yield ("PUT", G + "/groups/none", "{}", NOT_FOUND)
    yield ("PUT", G + "/groups/a%20b", "[]", NOT_FOUND)
    both = {"users": ["ann"], "clients": ["c1"], "groups": ["admins", "ops"]}
    sent = '{"actors":{"users":["ann","ann"],"clients":["c1"],"groups":["ops","admins"]}}'
    yield ("PUT", G + "/groups/ops", sent, (200, group("gamma", "ops", **both)))
    yield ("GET", G + "/groups/ops", "", (200, group("gamma", "ops", **both)))
    # a list: what isn't one, who isn't there, what is no permission
    list_of = G + "/nodes/n1/_acl"
    for wrong in ("[]", "{}", '{"read":1}', '{"read":{"actors":[]}}', '{"read":{"actors":[],"groups":[1]}}',
                  '{"read":{"actors":[],"groups":[],"x":[]}}', '{"read":{"actors":[],"groups":[]},"x":1}',
                  '{"update":{"actors":[],"groups":[]}}'):
        yield ("PUT", list_of + "/read", wrong, bad("read"))
    yield ("PUT", list_of + "/read", "{", NOT_JSON)
    yield ("PUT", list_of + "/read", "", NOT_JSON)
    yield ("PUT", list_of + "/own", "{}", NOT_FOUND)
    yield ("PUT", list_of + "/own", "{", NOT_JSON)
    yield ("PUT", list_of + "/read", permission("read", ["zed"], ["none"]), bad("actors"))
    yield ("PUT", list_of + "/read", permission("read", ["ann"], ["none"]), bad("groups"))
    yield ("PUT", list_of + "/read", permission("read", ["a b"], []), bad("actors"))
    yield ("PUT", list_of + "/read", permission("read", ["zed"], []), missing("grant"), by("c1"))
    yield ("PUT", list_of + "/read", '{"read":[]}', bad("read"), by("c1"))
    yield ("PUT", list_of + "/read", permission("read", ["pivotal", "ann", "c1", "ann"], ["ops"]), (200, "{}"))
    read = entry(["ann", "c1", "pivotal"], ["ops"])
    others = (entry(["pivotal"], AKU), entry(["pivotal"], AU), entry(["pivotal"], A), read, entry(["pivotal"], AU))
    whole = '{"create":%s,"delete":%s,"grant":%s,"read":%s,"update":%s}'
    yield ("GET", list_of, "", (200, whole % others))
    yield ("PUT", list_of, "{}", NOT_ALLOWED)
    yield ("GET", list_of + "/read", "", NOT_ALLOWED)
    # who is deleted goes out of every group and every list
    yield ("DELETE", G + "/groups/ops", "", (200, group("gamma", "ops", **both)))
    left = (*others[:3], entry(["ann", "c1", "pivotal"]), others[4])
    yield ("GET", list_of, "", (200, whole % left))
    yield ("GET", G + "/groups/ops/_acl", "", NOT_FOUND)
    yield ("POST", G + "/groups", '{"groupname":"ops"}', uri(G + "/groups/ops"))
    yield ("GET", list_of, "", (200, whole % left))
    yield ("PUT", G + "/groups/ops", sent, (200, group("gamma", "ops", **both)))
    yield ("DELETE", G + "/clients/c1", "", (200, client("c1")))
    yield ("GET", list_of, "", (200, whole % (*others[:3], entry(["ann", "pivotal"]), others[4])))
    yield ("GET", G + "/groups/ops", "", (200, group("gamma", "ops", ["ann"], [], ["admins", "ops"])))
    yield ("GET", G + "/groups/clients", "", (200, group("gamma", "clients")))
    yield ("GET", G + "/nodes/n1", "", UNKNOWN, by("c1"))
    yield ("GET", G + "/clients/c1/_acl", "", NOT_FOUND)
    yield ("DELETE", G + "/users/ann", "", (200, '{"username":"ann"}'))
    yield ("GET", list_of, "", (200, whole % (*others[:3], entry(["pivotal"]), others[4])))
    yield ("GET", G + "/groups/ops", "", (200, group("gamma", "ops", [], [], ["admins", "ops"])))
    yield ("GET", G + "/groups/admins", "", (200, group("gamma", "admins")))
    yield ("GET", G + "/users/ann", "", NOT_FOUND)
    yield ("POST", G + "/users", '{"username":"ann"}', uri(G + "/users/ann"))
    yield ("GET", G + "/nodes/n1", "", missing("read"), by("ann"))
    yield ("DELETE", G + "/groups/admins", "", NOT_ALLOWED)
    yield ("DELETE", G + "/groups/billing-admins", "", NOT_ALLOWED)
    # a stranger in `admins`, and then no stranger
    yield ("PUT", G + "/groups/admins", '{"actors":{"users":["zed"]}}', bad("users"))
    yield ("POST", G + "/users", '{"username":"zed"}', uri(G + "/users/zed"))
    yield ("PUT", G + "/groups/admins", '{"actors":{"users":["zed"]}}', (200, group("gamma", "admins", ["zed"])))
    yield ("POST", G + "/roles", '{"name":"r"}', uri(G + "/roles/r"), by("zed"))
    yield ("GET", G + "/roles/r/_acl", "", (200, acl(AU, AKU, AU, AU, A, ["zed"])), by("zed"))


# for each kind: its collection, the body that creates an object, a body that replaces it and what is told of both
KINDS = [
    ("nodes", '{"name":"k"}', "{}", node("k"), "name"),
    ("roles", '{"name":"k"}', "{}", role("k"), "name"),
    ("environments", '{"name":"k"}', "{}", environment("k"), "name"),
    ("clients", '{"name":"k"}', "{}", client("k"), "name"),
    ("groups", '{"groupname":"k"}', "{}", group("delta", "k"), "groupname"),
]


def each_permission():
    """Each permission of each kind, asked by an actor, by a member of a listed group and by nobody of both."""
    yield ("POST", "/organizations", '{"name":"delta"}', uri(D))
    for name in ("act", "mem", "out"):
        yield ("POST", D + "/users", '{"username":"%s"}' % name, uri(D + "/users/" + name))
    yield ("POST", D + "/groups", '{"groupname":"team"}', uri(D + "/groups/team"))
    yield ("PUT", D + "/groups/team", '{"actors":{"users":["mem"]}}', (200, group("delta", "team", ["mem"])))
    ours = (["act"], ["team"])
    for collection, body, other, told, _ in KINDS:
        one, all_ = "%s/%s/k" % (D, collection), "%s/%s" % (D, collection)
        yield ("PUT", "%s/containers/%s/_acl/create" % (D, collection), permission("create", *ours), (200, "{}"))
        yield ("POST", all_, body, missing("create"), by("out"))
        yield ("POST", all_, body, uri(one), by("mem"))
        yield ("POST", all_, body, EXISTS, by("act"))
        for word in ("read", "update", "delete", "grant"):
            yield ("PUT", "%s/_acl/%s" % (one, word), permission(word, *ours), (200, "{}"))
        yield ("GET", one, "", missing("read"), by("out"))
        yield ("GET", one, "", (200, told), by("act"))
        yield ("GET", one, "", (200, told), by("mem"))
        yield ("PUT", one, other, missing("update"), by("out"))
        yield ("PUT", one, other, (200, told), by("act"))
        yield ("PUT", one, other, (200, told), by("mem"))
        yield ("PUT", one + "/_acl/read", permission("read", ["mem"]), missing("grant"), by("out"))
        yield ("PUT", one + "/_acl/read", permission("read", ["mem"]), (200, "{}"), by("act"))
        yield ("GET", one, "", missing("read"), by("act"))
        yield ("GET", one + "/_acl", "", missing("grant"), by("out"))
        yield ("DELETE", one, "", missing("delete"), by("out"))
        yield ("DELETE", one, "", (200, told), by("mem"))
        # a new object begins with the container's list anew
        yield ("POST", all_, body, uri(one), by("act"))
        yield ("DELETE", one, "", (200, told), by("act"))
        yield ("PUT", "%s/containers/%s/_acl/read" % (D, collection), permission("read", *ours), (200, "{}"))
        yield ("GET", all_, "", missing("read"), by("out"))
    # a bag's list counts for its items
    bag = D + "/data/k"
    yield ("POST", D + "/data", '{"name":"k"}', uri(bag), by("out"))
    for word in ("read", "update", "delete"):
        yield ("PUT", "%s/_acl/%s" % (bag, word), permission(word, *ours), (200, "{}"))
    yield ("POST", bag, '{"id":"i"}', missing("update"), by("out"))
    yield ("POST", bag, '{"id":"i"}', uri(bag + "/i"), by("mem"))
    yield ("GET", bag, "", missing("read"), by("out"))
    yield ("GET", bag, "", (200, '{"i":"/organizations/delta/data/k/i"}'), by("act"))
    yield ("GET", bag + "/i", "", missing("read"), by("out"))
    yield ("GET", bag + "/i", "", (200, '{"id":"i"}'), by("mem"))
    yield ("PUT", bag + "/i", '{"z":1}', missing("update"), by("out"))
    yield ("PUT", bag + "/i", '{"z":1}', (200, '{"id":"i","z":1}'), by("act"))
    yield ("DELETE", bag + "/i", "", missing("delete"), by("out"))
    yield ("GET", bag + "/i/_acl", "", NOT_FOUND)
    yield ("DELETE", bag, "", missing("delete"), by("out"))
    yield ("DELETE", bag + "/i", "", (200, '{"id":"i","z":1}'), by("mem"))
    yield ("DELETE", bag, "", (200, '{"name":"k"}'), by("act"))
    yield ("GET", bag + "/_acl", "", NOT_FOUND)
    # users stand under the group `users`, containers under themselves
    yield ("PUT", D + "/groups/users/_acl/read", permission("read", ["act"]), (200, "{}"))
    yield ("PUT", D + "/groups/users/_acl/update", permission("update", ["act"]), (200, "{}"))
    yield ("GET", D + "/users", "", missing("read"), by("mem"))
    yield ("GET", D + "/users/out", "", missing("read"), by("mem"))
    yield ("GET", D + "/users/out", "", (200, '{"username":"out"}'), by("act"))
    yield ("POST", D + "/users", '{"username":"new"}', missing("update"), by("mem"))
    yield ("POST", D + "/users", '{"username":"new"}', uri(D + "/users/new"), by("act"))
    yield ("DELETE", D + "/users/new", "", missing("update"), by("mem"))
    yield ("DELETE", D + "/users/new", "", (200, '{"username":"new"}'), by("act"))
    yield ("PUT", D + "/containers/nodes/_acl/read", permission("read", [], ["team"]), (200, "{}"))
    yield ("GET", D + "/containers/nodes", "", missing("read"), by("act"))
    yield ("GET", D + "/containers/nodes", "", (200, '{"containername":"nodes","containerpath":"nodes"}'), by("mem"))
    # a group within a listed group lets its members in
    yield ("PUT", D + "/groups/team", '{"actors":{"groups":["users"]}}', (200, group("delta", "team", [], [], ["users"])))
    yield ("GET", D + "/containers/nodes", "", (200, '{"containername":"nodes","containerpath":"nodes"}'), by("mem"))
    yield ("PUT", D + "/groups/team", "{}", (200, group("delta", "team")))
    yield ("GET", D + "/containers/nodes", "", missing("read"), by("mem"))
    # one name in two organisations: each answers by its own lists
    yield ("POST", D + "/users", '{"username":"zed"}', uri(D + "/users/zed"))
    yield ("GET", D + "/containers/roles/_acl", "", missing("grant"), by("zed"))
    yield ("GET", G + "/containers/roles/_acl", "", (200, STARTING["roles"]), by("zed"))
    yield ("GET", G, "", UNKNOWN, by("act"))
    yield ("GET", D, "", (200, '{"name":"delta"}'), by("act"))


def each_permission_of_a_bag():
    """Of three users each has one permission on a bag and no other: which requests on it and its item he may make."""
    bag, item = D + "/data/shared", D + "/data/shared/i"
    yield ("POST", D + "/data", '{"name":"shared"}', uri(bag))
    for name, word in (("reader", "read"), ("updater", "update"), ("deleter", "delete")):
        yield ("POST", D + "/users", '{"username":"%s"}' % name, uri(D + "/users/" + name))
        yield ("PUT", "%s/_acl/%s" % (bag, word), permission(word, [name]), (200, "{}"))
    empty, first, second = "{}", '{"id":"i","k":1}', '{"id":"i","k":2}'
    yield from one_may(("GET", bag, ""), "read", "reader", (200, empty))
    yield from one_may(("POST", bag, first), "update", "updater", uri(item))
    yield from one_may(("GET", bag, ""), "read", "reader", (200, '{"i":"%s"}' % item))
    yield from one_may(("GET", item, ""), "read", "reader", (200, first))
    yield from one_may(("PUT", item, second), "update", "updater", (200, second))
    yield from one_may(("DELETE", item, ""), "delete", "deleter", (200, second))
    yield from one_may(("GET", bag, ""), "read", "reader", (200, empty))
    yield from one_may(("DELETE", bag, ""), "delete", "deleter", (200, '{"name":"shared"}'))
    yield ("GET", bag, "", NOT_FOUND, by("reader"))


def one_may(request, word, name, due):
    """A request that the others are refused for want of this permission, and that this user may then make."""
    for other in ("reader", "updater", "deleter"):
        if other != name:
            yield (*request, missing(word), by(other))
    yield (*request, due, by(name))


def groups_within_groups():
    """Whoever belongs to a group belongs to each that lists it: in a cycle, along a chain of 200, and by nobody's own group."""
    n1, read = T + "/nodes/n1", T + "/nodes/n1/_acl/read"
    yield ("POST", "/organizations", '{"name":"upsilon"}', uri(T))
    for name in ("ann", "bob"):
        yield ("POST", T + "/users", '{"username":"%s"}' % name, uri(T + "/users/" + name))
    yield ("POST", T + "/nodes", '{"name":"n1"}', uri(n1))
    chain = ["c%d" % number for number in range(200)]
    for name in ["g1", "g2", "g3", *chain]:
        yield ("POST", T + "/groups", '{"groupname":"%s"}' % name, uri("%s/groups/%s" % (T, name)))
    # two groups that list one another
    yield ("PUT", T + "/groups/g1", '{"actors":{"groups":["g2"]}}', (200, group("upsilon", "g1", [], [], ["g2"])))
    yield ("PUT", T + "/groups/g2", '{"actors":{"users":["ann"],"groups":["g1"]}}', (200, group("upsilon", "g2", ["ann"], [], ["g1"])))
    yield ("GET", n1, "", (200, node("n1")), by("ann"))
    yield ("PUT", read, permission("read", [], ["g1"]), (200, "{}"))
    yield ("GET", n1, "", (200, node("n1")), by("ann"))
    yield ("GET", n1, "", missing("read"), by("bob"))
    # one that is removed takes its members' way in
    yield ("DELETE", T + "/groups/g2", "", (200, group("upsilon", "g2", ["ann"], [], ["g1"])))
    yield ("GET", n1, "", missing("read"), by("ann"))
    yield ("GET", T + "/groups/g1", "", (200, group("upsilon", "g1")))
    # a member of the listing group gets nothing of the listed one
    yield ("POST", T + "/groups", '{"groupname":"g2"}', uri(T + "/groups/g2"))
    yield ("PUT", T + "/groups/g2", '{"actors":{"users":["ann"]}}', (200, group("upsilon", "g2", ["ann"])))
    yield ("PUT", T + "/groups/g1", '{"actors":{"users":["bob"],"groups":["g2"]}}', (200, group("upsilon", "g1", ["bob"], [], ["g2"])))
    yield ("GET", n1, "", (200, node("n1")), by("bob"))
    yield ("GET", n1, "", (200, node("n1")), by("ann"))
    yield ("PUT", read, permission("read", [], ["g2"]), (200, "{}"))
    yield ("GET", n1, "", missing("read"), by("bob"))
    yield ("GET", n1, "", (200, node("n1")), by("ann"))
    # a group that lists itself, with nobody in it
    yield ("PUT", T + "/groups/g3", '{"actors":{"groups":["g3"]}}', (200, group("upsilon", "g3", [], [], ["g3"])))
    yield ("PUT", read, permission("read", [], ["g3"]), (200, "{}"))
    yield ("GET", n1, "", missing("read"), by("ann"))
    # a chain
    for name, following in zip(chain, chain[1:]):
        yield ("PUT", "%s/groups/%s" % (T, name), '{"actors":{"groups":["%s"]}}' % following, (200, group("upsilon", name, [], [], [following])))
    yield ("PUT", read, permission("read", [], ["c0"]), (200, "{}"))
    found = T + "/search/node?q=name:n1"
    yield ("GET", n1, "", missing("read"), by("ann"))
    yield ("GET", found, "", (200, '{"rows":[],"start":0,"total":0}'), by("ann"))
    yield ("PUT", T + "/groups/c199", '{"actors":{"users":["ann"]}}', (200, group("upsilon", "c199", ["ann"])))
    yield ("GET", n1, "", (200, node("n1")), by("ann"))
    yield ("GET", found, "", (200, '{"rows":[%s],"start":0,"total":1}' % node("n1")), by("ann"))
    # one in its middle goes
    yield ("DELETE", T + "/groups/c100", "", (200, group("upsilon", "c100", [], [], ["c101"])))
    yield ("GET", n1, "", missing("read"), by("ann"))
    # a team within `admins`
    yield ("PUT", T + "/groups/admins", '{"actors":{"groups":["c101"]}}', (200, group("upsilon", "admins", [], [], ["c101"])))
    yield ("PUT", read, permission("read", [], ["c0", "g1"]), missing("grant"), by("bob"))
    yield ("PUT", read, permission("read", [], ["c0", "g1"]), (200, "{}"), by("ann"))
    yield ("GET", n1, "", (200, node("n1")), by("bob"))
    yield ("DELETE", T + "/users/ann", "", (200, '{"username":"ann"}'))
    yield ("GET", n1, "", UNKNOWN, by("ann"))


def permissions():
    yield from starts()
    yield from a_client_and_a_user()
    yield from groups_and_lists()
    yield from each_permission()
    yield from each_permission_of_a_bag()
    yield from groups_within_groups()
