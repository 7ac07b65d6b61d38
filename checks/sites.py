"""Organisations that change and are searched, drawn from numbers: each request with the reply that is due by
docs/reference/objects.md, permissions.md and search.md, a search's by a scan of what is there.
"""
import urllib.parse

from draws import Numbers
from messages import error, message, reply, uri
from objects import NAMES, sent_fields, stored, text
from queries import query, query_text
from scan import found, pairs_of

KINDS = {"node": "nodes", "role": "roles", "environment": "environments", "client": "clients"}
BAGS = ["a", "bnode", "nodes", "node"]
NOT_FOUND, EXISTS, NOT_ALLOWED = reply(404, error("not found")), reply(409, error("already exists")), reply(405, error("not allowed"))
UNKNOWN = reply(401, error("caller is not known"))


class Organisation:
    """The objects by index and name, the bags among the indexes, and the paths of those whose lists let clients read."""

    def __init__(self, path):
        self.path = path
        self.objects = {index: {} for index in KINDS}
        self.bags = {}
        self.readable = set()
        self.put("environment", "_default", stored("environment", "_default", {}))

    def index(self, index):
        """The objects of an index, or None where there is no such one."""
        return self.objects[index] if index in KINDS else self.bags.get(index)

    def put(self, index, name, tree):
        if name not in self.objects[index] and index != "client":
            self.readable.add("%s/%s" % (KINDS[index], name))
        self.objects[index][name] = tree

    def take(self, index, name):
        self.readable.discard("%s/%s" % (KINDS[index], name))
        return self.objects[index].pop(name)


class Site:
    """What a stream makes of its organisations. Each call gives a request with the reply that is due."""

    def __init__(self, number):
        self.numbers = Numbers(number)
        # with the index `bnode` the first one's name reads as the second's with `node`
        self.names = [form % number for form in ("o%d", "o%db", "o%dbn")]
        self.orgs = {}
        # the pairs that any object has had
        self.pairs = [("name", "a")]

    def create_organisation(self, name):
        path = "/organizations/" + name
        sent = message("POST", "/organizations", text({"name": name}))
        if name in self.orgs:
            return sent, EXISTS
        self.orgs[name] = Organisation(path)
        return sent, reply(201, uri(path))

    def kept(self, kind, name, fields):
        """The object that is kept of these fields, whose pairs queries may be made of from now on."""
        tree = stored(kind, name, fields)
        self.pairs += sorted(pairs_of(kind, tree))
        return tree

    def asked(self, objects):
        """A method and the name that it is about: mostly of an object that isn't there for POST, and of one that is for others."""
        method = self.numbers.one_of(["POST", "POST", "POST", "PUT", "PUT", "PUT", "DELETE"]) if objects else "POST"
        fit = [name for name in NAMES if (name in (objects or {})) == (method != "POST")]
        return method, self.numbers.one_of(fit if fit and self.numbers.below(8) else NAMES)

    def kind_change(self, org, path, index):
        """An object of one of the four kinds comes, is replaced, or goes."""
        numbers, at = self.numbers, "%s/%s" % (path, KINDS[index])
        method, name = self.asked(org and org.objects[index])
        if index == "environment" and method != "POST" and numbers.below(4) == 0:
            name = "_default"
        fields, is_bad = sent_fields(numbers, index), method != "DELETE" and numbers.below(15) == 0
        bad = "validator" if index == "client" else "chef_type"
        body = dict(fields, **({bad: "bad"} if is_bad else {}))
        if method == "POST" or numbers.below(2):
            body["name"] = name
        if numbers.below(8) == 0:
            body["dropped"] = "a"
        sent = message(method, at if method == "POST" else "%s/%s" % (at, name), "" if method == "DELETE" else text(body))
        if org is None:
            return sent, NOT_FOUND
        if is_bad:
            return sent, reply(400, error("bad field " + bad))
        is_there = name in org.objects[index]
        if method == "POST" and is_there:
            return sent, EXISTS
        if method != "POST" and not is_there:
            return sent, NOT_FOUND
        if method != "POST" and (index, name) == ("environment", "_default"):
            return sent, NOT_ALLOWED
        if method == "DELETE":
            return sent, reply(200, text(org.take(index, name)))
        org.put(index, name, self.kept(index, name, fields))
        return sent, reply(201, uri("%s/%s" % (at, name))) if method == "POST" else reply(200, text(org.objects[index][name]))

    def bag_change(self, org, path, bag):
        """A bag comes, or goes with all its items."""
        is_post = org and bag not in org.bags or self.numbers.below(4) == 0
        sent = message("POST", path + "/data", text({"name": bag})) if is_post else message("DELETE", "%s/data/%s" % (path, bag))
        if org is None or not is_post and bag not in org.bags:
            return sent, NOT_FOUND
        if not is_post:
            del org.bags[bag]
            org.readable.discard("data/" + bag)
            return sent, reply(200, text({"name": bag}))
        if bag in org.bags:
            return sent, EXISTS
        org.bags[bag] = {}
        org.readable.add("data/" + bag)
        return sent, reply(201, uri("%s/data/%s" % (path, bag)))

    def item_change(self, org, path, bag):
        """An item of a bag comes, is replaced, or goes."""
        numbers, at, items = self.numbers, "%s/data/%s" % (path, bag), org and org.bags.get(bag)
        method, name = self.asked(items)
        fields = sent_fields(numbers, "item")
        body = {**fields, "id": name} if method == "POST" or numbers.below(2) else fields
        if numbers.below(6) == 0:
            body = {"json_class": "Chef::DataBagItem", "raw_data": body, "b": "beside"}
        sent = message(method, at if method == "POST" else "%s/%s" % (at, name), "" if method == "DELETE" else text(body))
        if items is None or method != "POST" and name not in items:
            return sent, NOT_FOUND
        if method == "POST" and name in items:
            return sent, EXISTS
        if method == "DELETE":
            return sent, reply(200, text(items.pop(name)))
        items[name] = self.kept("item", name, fields)
        return sent, reply(201, uri("%s/%s" % (at, name))) if method == "POST" else reply(200, text(items[name]))

    def list_change(self, org, path, index, name):
        """The list of an object, or of a bag, lets clients read from now on, or doesn't."""
        at = "%s/%s" % (KINDS[index], name) if index in KINDS else "data/" + index
        groups = self.numbers.one_of([["clients"], []])
        sent = message("PUT", "%s/%s/_acl/read" % (path, at), text({"read": {"actors": [], "groups": groups}}))
        if org is None or (name not in org.objects[index] if index in KINDS else index not in org.bags):
            return sent, NOT_FOUND
        org.readable.discard(at)
        if groups:
            org.readable.add(at)
        return sent, reply(200, "{}")

    def change(self):
        """A change of one organisation."""
        numbers, org_name = self.numbers, self.drawn_organisation()
        org, path = self.orgs.get(org_name), "/organizations/" + org_name
        index = numbers.one_of(["node"] * 6 + ["role", "role", "environment", "client"])
        form, bag = numbers.below(24), numbers.one_of(sorted(org.bags) if org and org.bags and numbers.below(8) else BAGS)
        if form == 0:
            return self.create_organisation(numbers.one_of(self.names))
        if form == 1:
            names = sorted(org.objects[index]) if org else []
            return self.list_change(org, path, index, numbers.one_of(names or NAMES))
        if form == 2:
            return self.list_change(org, path, numbers.one_of([bag for bag in BAGS if bag not in KINDS]), None)
        if form < 5:
            return self.bag_change(org, path, numbers.one_of(BAGS))
        return self.item_change(org, path, bag) if form < 12 else self.kind_change(org, path, index)

    def drawn_organisation(self):
        """The name of one that is there, or now and then of any."""
        return self.numbers.one_of(sorted(self.orgs) if self.numbers.below(30) else self.names)

    def seen(self, org, index, caller):
        """Those objects of the index that the caller may read."""
        objects = org.index(index)
        if objects is None or caller == "pivotal":
            return objects
        at = lambda name: "%s/%s" % (KINDS[index], name) if index in KINDS else "data/" + index
        return {name: tree for name, tree in objects.items() if at(name) in org.readable}

    def search(self):
        """A search of some index, now and then by a client."""
        numbers, org_name = self.numbers, self.drawn_organisation()
        org, path = self.orgs.get(org_name), "/organizations/" + org_name
        index = numbers.one_of(["node"] * 4 + ["role", "environment", "client"] + [bag for bag in BAGS if bag not in KINDS])
        caller = "pivotal"
        if numbers.below(8) == 0:
            caller = numbers.one_of(sorted(org and org.objects["client"] or NAMES) if numbers.below(8) else NAMES)
        kind, objects, pairs = index if index in KINDS else "item", org and org.index(index), self.pairs
        if objects and numbers.below(6):
            # with two that nodes alone can have
            pairs = sorted(pairs_of(kind, objects[numbers.one_of(sorted(objects))])) + [("recipe", "a"), ("role", "a")]
        asked = query(numbers, pairs)
        parameters = ["q=" + urllib.parse.quote_plus(query_text(numbers, asked))]
        start, rows = (numbers.below(4) if numbers.below(6) == 0 else default for default in (0, 1000))
        parameters += ["start=%d" % start] * (start != 0) + ["rows=%d" % rows] * (rows != 1000)
        sent = message("GET", "%s/search/%s?%s" % (path, index, "&".join(parameters)), headers="X-Ops-UserId: %s\r\n" % caller)
        if org is None:
            return sent, NOT_FOUND
        if caller != "pivotal" and caller not in org.objects["client"]:
            return sent, UNKNOWN
        objects = self.seen(org, index, caller)
        if objects is None:
            return sent, NOT_FOUND
        names = found(kind, objects, asked)
        shown = ",".join(text(objects[name]) for name in names[start : start + rows])
        return sent, reply(200, '{"rows":[%s],"start":%d,"total":%d}' % (shown, start, len(names)))
