"""Rows on searches."""
import urllib.parse

from table.forms import *

M, N, X, R = ("/organizations/" + name for name in ("mu", "nu", "xi", "rho"))
TOO_DEEP, NOT_WHOLE = (400, error("body is too deep")), (400, error("number is not whole"))


def q(text):
    """The parameter of this query, form-encoded."""
    return "?q=" + urllib.parse.quote_plus(text, safe=":*")


def bad_query(place):
    return 400, error("bad query at %d" % place)


def bad_parameter(name):
    return 400, error("bad parameter " + name)


def page(rows, start=0, total=None):
    """The reply to a search: these rows, from this place on, of so many in all."""
    return 200, '{"rows":[%s],"start":%d,"total":%d}' % (",".join(rows), start, len(rows) if total is None else total)


def part(path, data="{}"):
    """A row of a partial search: what it shows of the object at this path."""
    return '{"data":%s,"url":"%s"}' % (data, path)


def parts(path, *names):
    """Rows without data, of the objects of these names below a path."""
    return [part(path + "/" + name) for name in names]


def indexes(org, *bags):
    """The indexes of an organisation with these bags."""
    names = sorted(["client", "environment", "node", "role", *bags])
    return 200, "{%s}" % ",".join('"%s":"/organizations/%s/search/%s"' % (name, org, name) for name in names)


def the_worked_searches():
    """Three nodes of nearly the same attributes."""
    nodes, normal = M + "/search/node", {"n1": '{"a":{"b":"xy"}}', "n2": '{"a":{"b":"xy"},"c":2}', "n3": '{"a":{"b":"xy"},"c":10}'}
    n1, n2, n3 = (node(name, normal[name]) for name in normal)
    yield ("GET", M + "/search", "", NOT_FOUND)
    yield ("GET", nodes, "", NOT_FOUND)
    yield ("POST", "/organizations", '{"name":"mu"}', uri(M))
    yield ("GET", M + "/search", "", indexes("mu"))
    yield ("GET", nodes, "", page([]))
    for name in normal:
        yield ("POST", M + "/nodes", '{"name":"%s","normal":%s}' % (name, normal[name]), uri(M + "/nodes/" + name))
    # 10 lies between 1 and 3 by its bytes
    yield ("GET", nodes + q("a_b:x* AND NOT c:[1 TO 3]"), "", page([n1]))
    yield ("GET", nodes + "?q=a_b:x*+AND+NOT+c:[1+TO+3]", "", page([n1]))
    yield ("GET", nodes + q("a:1 b:2"), "", bad_query(4))
    yield ("GET", nodes + q("*:*") + "&start=5", "", page([], 5, 3))
    yield ("GET", nodes + q("b:xy"), "", page([n1, n2, n3]))
    yield ("GET", nodes, "", page([n1, n2, n3]))
    yield ("POST", nodes + q("c:2"), '{"v":["c"],"w":["a","z"]}', page([part(M + "/nodes/n2", '{"v":2,"w":null}')]))
    yield ("GET", nodes + "?rows=1&start=1&q=b:xy", "", page([n2], 1, 3))
    # the items of a bag that is called as the nodes' index are in no index
    yield ("POST", M + "/data", '{"name":"node"}', uri(M + "/data/node"))
    yield ("POST", M + "/data/node", '{"id":"i","b":"xy"}', uri(M + "/data/node/i"))
    yield ("GET", nodes + q("b:xy"), "", page([n1, n2, n3]))
    yield ("GET", nodes + q("id:i"), "", page([]))
    yield ("GET", M + "/search", "", indexes("mu"))
    yield ("GET", M + "/search/nobag", "", NOT_FOUND)


def parameters_of_a_search():
    """The query, the first place and the count of rows: absent, given, encoded, twice and bad."""
    nodes = M + "/search/node"
    rows = parts(M + "/nodes", "n1", "n2", "n3")
    zeros, nines = "0" * 40, "9" * 40
    for text, due in (
        ("", page(rows)),
        ("?", page(rows)),
        ("?rows=0", page([], 0, 3)),
        ("?rows=1", page(rows[:1], 0, 3)),
        ("?rows=2", page(rows[:2], 0, 3)),
        ("?rows=3", page(rows)),
        ("?rows=4", page(rows)),
        ("?rows=4294967295", page(rows)),
        ("?start=0", page(rows)),
        ("?start=1", page(rows[1:], 1, 3)),
        ("?start=1&rows=1", page(rows[1:2], 1, 3)),
        ("?rows=1&start=2", page(rows[2:], 2, 3)),
        ("?rows=7&start=2", page(rows[2:], 2, 3)),
        ("?start=3", page([], 3, 3)),
        ("?start=4", page([], 4, 3)),
        ("?start=4294967295", page([], 4294967295, 3)),
        ("?start=4294967295&rows=4294967295", page([], 4294967295, 3)),
        # any number of digits
        ("?start=01&rows=002", page(rows[1:], 1, 3)),
        ("?start=%s1&rows=%s2" % (zeros, zeros), page(rows[1:], 1, 3)),
        ("?start=%s&rows=%s" % (zeros, zeros), page([], 0, 3)),
        ("?start=%s4294967295" % zeros, page([], 4294967295, 3)),
        # encoded names and values
        ("?st%61rt=1&r%6fws=%31", page(rows[1:2], 1, 3)),
        ("?%71=name:n1", page(rows[:1])),
        ("?q=name%3An1", page(rows[:1])),
        ("?q=name%3an1+OR%20name:n3", page([rows[0], rows[2]])),
        ("?q=%2A:%2a", page(rows)),
        ("?q=+name:n1%20", page(rows[:1])),
        # of those that come twice the first counts
        ("?rows=2&rows=x", page(rows[:2], 0, 3)),
        ("?start=1&start=2&start=", page(rows[1:], 1, 3)),
        ("?q=name:n1&q=", page(rows[:1])),
        ("?q=name:n3&q=name:n1&rows=1", page(rows[2:])),
        # others are passed over, and so are names in other letters and what is no parameter
        ("?sort=x&fl=name&Q=&Rows=x&START=x&row=0", page(rows)),
        ("?&&rows=1&&=x&=", page(rows[:1], 0, 3)),
        # what is a query of its own: `=`, a `%` that encodes nothing, and what is no text
        ("?q=name:n1=n2", page([])),
        ("?q=name:n1%", page([])),
        ("?q=%ff:n1", page([])),
        ("?q=name:n%fe", page([])),
    ):
        yield ("POST", nodes + text, "{}", due)
    for name in ("start", "rows"):
        for text in ("", "x", "-1", "%2B1", "+1", "1+", "1.0", "1e3", "0x1", "1,0", "1;", "all", "4294967296", "18446744073709551616", nines, "%D9%A1", "x&%s=1" % name):
            yield ("GET", nodes + "?%s=%s" % (name, text), "", bad_parameter(name))
        yield ("GET", nodes + "?%s" % name, "", bad_parameter(name))
    for text, place in (("?q=", 0), ("?q", 0), ("?q&q=*:*", 0), ("?q=&rows=1", 0), ("?q=a:1+b:2", 4), ("?q=a%3A1%20b%3A2", 4), ("?q=name%2Bn1", 4), ("?q=n1", 2), ("?q=+", 1)):
        yield ("GET", nodes + text, "", bad_query(place))
    # the query comes first, then the place, then the count, and then the body
    for text, body, due in (
        ("?rows=x&start=x&q=name", "{", bad_query(4)),
        ("?rows=x&start=x", "{", bad_parameter("start")),
        ("?start=4294967296&rows=4294967296&q=*:*", "", bad_parameter("start")),
        ("?rows=x&start=1", "{", bad_parameter("rows")),
        ("?rows=1&start=1&q=*:*", "{", NOT_JSON),
        ("?rows=x", "[]", bad_parameter("rows")),
        ("?rows=1", "[]", bad("body")),
    ):
        yield ("POST", nodes + text, body, due)
    # the body of a GET isn't looked at
    yield ("GET", nodes + "?rows=0", "{", page([], 0, 3))


def a_search_follows_what_changes():
    """What is saved again is found by what it has now, and what is gone isn't found."""
    nodes, n2 = M + "/search/node", '{"a":{"b":"xy"}}'
    found = lambda text, *names: ("POST", nodes + q(text), "{}", page(parts(M + "/nodes", *names)))
    yield ("PUT", M + "/nodes/n2", '{"normal":%s}' % n2, (200, node("n2", n2)))
    yield found("c:2")
    yield found("b:xy", "n1", "n2", "n3")
    yield found("NOT c:*", "n1", "n2")
    yield ("PUT", M + "/nodes/n3", '{"normal":{"c":2},"run_list":["a"]}', (200, node("n3", '{"c":2}', '["recipe[a]"]')))
    yield found("c:2", "n3")
    yield found("c:10")
    yield found("recipe:a", "n3")
    yield found("b:xy", "n1", "n2")
    # a request that is refused changes nothing of it
    yield ("PUT", M + "/nodes/n3", '{"normal":{"b":"xy"},"chef_type":"role"}', bad("chef_type"))
    yield ("POST", M + "/nodes", '{"name":"n3","normal":{"b":"xy"}}', EXISTS)
    yield found("b:xy", "n1", "n2")
    yield ("DELETE", M + "/nodes/n1", "", (200, node("n1", n2)))
    yield found("b:xy", "n2")
    yield found("*:*", "n2", "n3")
    yield ("POST", M + "/nodes", '{"name":"n1"}', uri(M + "/nodes/n1"))
    yield found("b:xy", "n2")
    yield found("name:n1", "n1")
    # rows are in the byte order of the names
    for name in ("n10", "N", "n:", "n-", "n.", "n_"):
        yield ("POST", M + "/nodes", '{"name":"%s"}' % name, uri(M + "/nodes/" + name))
    yield found("*:*", "N", "n-", "n.", "n1", "n10", "n2", "n3", "n:", "n_")
    for name in ("n10", "N", "n:", "n-", "n.", "n_"):
        yield ("DELETE", M + "/nodes/" + name, "", (200, node(name)))
    yield ("GET", nodes + q("NOT name:n2") + "&rows=1", "", page([node("n1")], 0, 2))


def each_index():
    """Roles, environments, clients and data bags are found as nodes are, each in an index of its own."""
    r1 = role("r1", '["recipe[a]","role[r2]"]', '{"prod":["recipe[b]"]}', '{"tier":"front"}')
    prod, default = environment("prod", '{"nginx":"~> 1.0"}'), environment("_default")
    yield ("POST", M + "/roles", '{"name":"r1","run_list":["a","role[r2]"],"env_run_lists":{"prod":["b"]},"default_attributes":{"tier":"front"}}', uri(M + "/roles/r1"))
    yield ("POST", M + "/roles", '{"name":"r2"}', uri(M + "/roles/r2"))
    yield ("POST", M + "/environments", '{"name":"prod","cookbook_versions":{"nginx":"~> 1.0"}}', uri(M + "/environments/prod"))
    yield ("POST", M + "/clients", '{"name":"web1"}', uri(M + "/clients/web1"))
    yield ("POST", M + "/clients", '{"name":"web2","validator":true}', uri(M + "/clients/web2"))
    for text, rows in (
        ("name:r1", [r1]),
        ("*:*", [r1, role("r2")]),
        ("chef_type:role AND NOT name:r1", [role("r2")]),
        ("tier:front", [r1]),
        ("default_attributes_tier:front", [r1]),
        ("default_tier:front", []),
        ('prod:"recipe[b]"', [r1]),
        (r"env_run_lists_prod:recipe\[b\]", [r1]),
        # a run list is taken apart in nodes alone
        ('run_list:"role[r2]"', [r1]),
        ("role:r2", []),
        ("recipe:a", []),
        ("name:web1", []),
    ):
        yield ("GET", M + "/search/role" + q(text), "", page(rows))
    for text, rows in (
        ("*:*", [default, prod]),
        ("name:prod", [prod]),
        ('nginx:"~> 1.0"', [prod]),
        (r"cookbook_versions_nginx:\~>\ 1*", [prod]),
        ("NOT cookbook_versions_nginx:*", [default]),
    ):
        yield ("GET", M + "/search/environment" + q(text), "", page(rows))
    web2 = '{"name":"web2","validator":true}'
    for text, rows in (("*:*", [client("web1"), web2]), ("validator:true", [web2]), ("validator:false", [client("web1")]), ("chef_type:*", [])):
        yield ("GET", M + "/search/client" + q(text), "", page(rows))
    # what a partial search shows of each, and where it is
    for index, collection, name, path, value in (
        ("role", "roles", "r1", '["default_attributes","tier"]', '"front"'),
        ("role", "roles", "r1", '["tier"]', "null"),
        ("role", "roles", "r1", '["env_run_lists","prod"]', '["recipe[b]"]'),
        ("role", "roles", "r1", "[]", r1),
        ("environment", "environments", "prod", '["cookbook_versions"]', '{"nginx":"~> 1.0"}'),
        ("environment", "environments", "prod", '["nginx"]', "null"),
        ("environment", "environments", "prod", "[]", prod),
        ("client", "clients", "web2", '["validator"]', "true"),
        ("client", "clients", "web1", '["validator"]', "false"),
        ("client", "clients", "web1", "[]", client("web1")),
    ):
        due = page([part("%s/%s/%s" % (M, collection, name), '{"v":%s}' % value)])
        yield ("POST", "%s/search/%s?q=name:%s" % (M, index, name), '{"v":%s}' % path, due)


def a_bag_is_an_index():
    """The items of a bag come, change and go; so does the bag."""
    bag, dogs = M + "/data/dogs", M + "/search/dogs"
    ada, rex, rest = '{"id":"ada","old":true,"size":{"cm":50}}', '{"id":"rex","size":{"cm":50}}', '{"id":"rex","size":{"cm":60}}'
    yield ("GET", dogs, "", NOT_FOUND)
    yield ("POST", M + "/data", '{"name":"dogs"}', uri(bag))
    yield ("GET", dogs, "", page([]))
    yield ("GET", M + "/search", "", indexes("mu", "dogs"))
    yield ("POST", bag, '{"json_class":"Chef::DataBagItem","raw_data":%s}' % rex, uri(bag + "/rex"))
    yield ("POST", bag, ada, uri(bag + "/ada"))
    # a bag whose name begins with that of another, and one before which it stands
    for name in ("dog", "dogs2"):
        yield ("POST", M + "/data", '{"name":"%s"}' % name, uri(M + "/data/" + name))
        yield ("POST", M + "/data/" + name, '{"id":"%s","cm":50}' % name, uri("%s/data/%s/%s" % (M, name, name)))
    for text, rows in (
        ("*:*", [ada, rex]),
        ("cm:50", [ada, rex]),
        ("size_cm:50 AND NOT old:true", [rex]),
        ("id:a*", [ada]),
        ("name:*", []),
        ("json_class:*", []),
        ("raw_data_id:*", []),
    ):
        yield ("GET", dogs + q(text), "", page(rows))
    yield ("PUT", bag + "/rex", '{"size":{"cm":60}}', (200, rest))
    yield ("GET", dogs + q("cm:50"), "", page([ada]))
    yield ("GET", dogs + q("cm:60"), "", page([rest]))
    shown = part(bag + "/ada", '{"cm":50,"whole":%s}' % ada), part(bag + "/rex", '{"cm":60,"whole":%s}' % rest)
    yield ("POST", dogs, '{"whole":[],"cm":["size","cm"]}', page(shown))
    yield ("POST", dogs + "?start=1&rows=1", '{"whole":[],"cm":["size","cm"]}', page(shown[1:], 1, 2))
    yield ("DELETE", bag + "/ada", "", (200, ada))
    yield ("GET", dogs, "", page([rest]))
    yield ("GET", M + "/search/dog", "", page(['{"cm":50,"id":"dog"}']))
    yield ("GET", M + "/search", "", indexes("mu", "dog", "dogs", "dogs2"))
    yield ("DELETE", bag, "", (200, '{"name":"dogs"}'))
    yield ("GET", dogs, "", NOT_FOUND)
    yield ("GET", M + "/search", "", indexes("mu", "dog", "dogs2"))
    yield ("POST", M + "/data", '{"name":"dogs"}', uri(bag))
    yield ("GET", dogs, "", page([]))
    # bags that are called as the other indexes are; names are compared by their bytes
    for name in ("role", "environment", "client", "Node"):
        yield ("POST", M + "/data", '{"name":"%s"}' % name, uri(M + "/data/" + name))
        yield ("POST", M + "/data/" + name, '{"id":"x"}', uri("%s/data/%s/x" % (M, name)))
    for name in ("role", "environment", "client"):
        yield ("GET", M + "/search/" + name + q("id:x"), "", page([]))
    yield ("GET", M + "/search/client?rows=0", "", page([], 0, 2))
    yield ("GET", M + "/search/Node", "", page(['{"id":"x"}']))
    yield ("GET", M + "/search", "", indexes("mu", "Node", "dog", "dogs", "dogs2"))


# three nodes that queries ask for
FLEET = {
    "db1": r"""{"name":"db1","chef_environment":"prod","run_list":["postgres::server"],"automatic":{"os":"freebsd"},
 "default":{"size":18446744073709551615},"normal":{"city":"Köln","empty":"","port":5432,"size":-5,"star":"a*b","title":"two words","where":"C:\\data"}}""",
    "web1": r"""{"name":"web1","run_list":["recipe[nginx::tls@1.2.0]","role[web]","base"],
 "automatic":{"filesystem":{"/dev/sda1":{"kb":"9"}},"os":"linux","roles":["web","base"]},
 "normal":{"net":{"names":["a","b"],"note":null,"port":80,"tls":true},"star":"axb"}}""",
    "web2": r"""{"name":"web2","run_list":["role[web]","nginx"],"automatic":{"disks":[{"kb":7},[{"kb":8}],{"kb":[6]}],"os":"linux"},"override":{"os":"plan9"},
 "normal":{"net":{"names":["b","c"],"port":8080,"tls":false},"NOT":1,"a b":2,"a:b":3,"-x":4,"größe":5}}""",
}

# queries, each with the nodes that it finds
QUERIES = [
    # everything, and words
    ("*:*", "db1 web1 web2"), ("name:*", "db1 web1 web2"), ("name:**", "db1 web1 web2"), ("name:web1", "web1"), ("name:Web1", ""), ("name:web", ""),
    ("name:web*", "web1 web2"), ("name:*1", "db1 web1"), ("name:w*1", "web1"), ("name:*e*", "web1 web2"), ("name:web1*", "web1"),
    ("name:web?", "web1 web2"), ("name:???", "db1"), ("name:?", ""), ("name:?*b1", "db1 web1"), ("name:??*b1", "web1"),
    ("chef_environment:prod", "db1"), ("chef_environment:_default", "web1 web2"), ("chef_type:node", "db1 web1 web2"),
    ("json_class:Chef::Node", "db1 web1 web2"), (r"json_class:Chef\:\:Node", "db1 web1 web2"), ("policy_name:*", ""),
    # a value that a higher level hides is found too; the level isn't part of the field
    ("os:linux", "web1 web2"), ("os:plan9", "web2"), ("os:linux AND os:plan9", "web2"), ("OS:linux", ""), ("automatic_os:*", ""), ("override_os:*", ""),
    # keys along the path, and the last alone; numbers, truth values, null, arrays
    ("net_port:80", "web1"), ("port:80", "web1"), ("port:80*", "web1 web2"), ("net:*", ""), ("normal_net_port:80", ""), ("port:080", ""),
    ("net_tls:true", "web1"), ("tls:false", "web2"), ("tls:?????", "web2"), ("net_note:*", ""), ("note:*", ""),
    ("names:b", "web1 web2"), ("net_names:a", "web1"), ("names:a AND names:c", ""), ("names:a OR names:c", "web1 web2"),
    ("size:-5", "db1"), ("size:18446744073709551615", "db1"), ("size:5", ""),
    ("kb:9", "web1"), ("filesystem_/dev/sda1_kb:9", "web1"), ("/dev/sda1_kb:9", ""), ("/dev/sda1:*", ""),
    ("disks_kb:7", "web2"), ("disks_kb:8", "web2"), ("disks_kb:6 AND kb:6", "web2"), ("disks_0_kb:7", ""), ("disks:*", ""),
    # what a run list names
    ("recipe:nginx", "web2"), ("recipe:nginx*", "web1 web2"), ("recipe:nginx::tls@1.2.0", "web1"), ("recipe:nginx::tls", ""), ("recipe:base", "web1"),
    ("recipe:postgres::server", "db1"), ("role:web", "web1 web2"), ("role:base", ""), ("roles:base", "web1"), ('run_list:"role[web]"', "web1 web2"),
    (r"run_list:recipe\[base\]", "web1"), ("run_list:base", ""), ("run_list:role*", "web1 web2"),
    # quotes and escapes
    ('title:"two words"', "db1"), (r"title:two\ words", "db1"), ("title:two*", "db1"), ('title:"two*"', ""), ('title:"two words "', ""), (r'title:"two\ words"', "db1"),
    ('empty:""', "db1"), ("empty:*", "db1"), ("empty:?*", ""), ('star:""', ""),
    (r"where:C:\\data", "db1"), (r'where:"C:\\data"', "db1"), (r"where:C:\data", ""),
    ("star:a*b", "db1 web1"), ("star:a?b", "db1 web1"), (r"star:a\*b", "db1"), ('star:"a*b"', "db1"), (r"star:a\?b", ""),
    ("city:Köln", "db1"), ("city:K?ln", "db1"), ("city:K*n", "db1"), ('city:"Köln"', "db1"), (r"city:K\öln", "db1"), ("city:K??ln", ""), ("city:Koln", ""),
    ("größe:5", "web2"), (r"a\ b:2", "web2"), (r"a\:b:3", "web2"), (r"\-x:4", "web2"), (r"na\me:web1", "web1"), ("NOT:1", "web2"), (r"\NOT:1", "web2"),
    # ranges, by bytes
    ("port:[80 TO 8080]", "web1 web2"), ("port:{80 TO 8080}", ""), ("port:{5432 TO 8080}", "web1"), ("port:[5432 TO 80]", "db1 web1"),
    ("port:[* TO 80]", "db1 web1"), ("port:{* TO 80}", "db1"), ("port:[80 TO *]", "web1 web2"), ("port:{80 TO *}", "web2"),
    ("port:[* TO *]", "db1 web1 web2"), ("port:{* TO *}", "db1 web1 web2"), ("port:[9 TO 1]", ""), ("port:[1000 TO 6000]", "db1"),
    ('port:["80" TO "81"]', "web1 web2"), ("port:[80 TO 80]", "web1"), ("name:[a TO w]", "db1"), (r'title:["two " TO two\ x]', "db1"),
    ('empty:[* TO ""]', "db1"), ('empty:{"" TO *}', ""), ("net:[* TO *]", ""),
    # NOT, AND, OR
    ("NOT name:web1", "db1 web2"), ("NOT NOT name:web1", "web1"), ("NOT *:*", ""), ("*:* AND NOT *:*", ""), ("NOT nothing:*", "db1 web1 web2"),
    ("name:web1 OR name:db1", "db1 web1"), ("name:web* AND os:plan9", "web2"), ("name:db1 OR name:web1 AND os:plan9", "db1"),
    ("(name:db1 OR name:web1) AND os:plan9", ""), ("os:plan9 AND name:web1 OR name:db1", "db1"), ("os:plan9 AND (name:web2 OR name:db1)", "web2"),
    ("NOT name:web1 AND NOT name:web2", "db1"), ("NOT (name:web1 OR name:web2)", "db1"), ("NOT name:web1 OR name:web1", "db1 web1 web2"),
    ("NOT(name:web1)", "db1 web2"), ("(name:web1)OR(name:db1)", "db1 web1"), ("(name:web1)AND NOT(os:plan9)", "web1"), ("( ( name:web1 ) )", "web1"),
    ("  name:web1   AND   os:linux  ", "web1"), ("name:web1\tAND\nos:linux", "web1"),
    # where a field is due, they are fields; in a word, signs are themselves
    ("NOT NOT:1", "db1 web1"), ("AND:1 OR OR:1", ""), ("NOT:1 AND NOT AND:1", "web2"), ("name:a&&b", ""), ("name:+web1", ""), ("name:!web1", ""),
    ("NOT " * 100 + "name:web1", "web1"), ("(" * 100 + "name:web1" + ")" * 100, "web1"), ("NOT (" * 50 + "name:web1" + ")" * 50, "web1"),
]

# texts that are no query, each with how much of it begins one
NO_QUERIES = [
    ("", 0), (" ", 1), ("web1", 4), ('"web1"', 0), ("name", 4), ("name:", 5), (":x", 0), ("*", 1), ("*:", 2), ("*:x", 2), ("*:*x", 3), ("a*:x", 1), ("a b:x", 1),
    ("a:1 b:2", 4), ("name:two words", 9), ("name:web1 && os:linux", 10), ("name:web1 || os:linux", 10), ("name:web1 or os:linux", 10), ("name:web1 NOT os:linux", 10),
    ("!name:x", 0), ("+name:x", 0), ("-name:x", 0), ("name:web1 AND", 13), ("name:web1 AND ", 14), ("name:web1 ANDos:x", 13), ("name:web1 AND OR os:x", 16), ("OR", 2),
    ("NOT", 3), ("NOT ", 4), ("not name:x", 3), ("(name:x", 7), ("name:x)", 6), ("(name:x))", 8), ("()", 1), ("name:(a b)", 5), ("name:x(", 6),
    ('name:"a', 7), ('name:"a"b', 8), ("name:a~", 6), ("name:a^2", 6), ("name:a\\", 7), ("name:a[", 6),
    ("port:[80 TO 90", 14), ("port:[80 TO 90}", 14), ("port:{80 TO 90]", 14), ("port:[80  TO 90]", 9), ("port:[ 80 TO 90]", 6), ("port:[80 TO 90 ]", 14), ("port:[80 to 90]", 9),
    ("port:[80 TO]", 11), ("port:[8* TO 9]", 7), ("port:[*8 TO 9]", 7), ("port:[80 TO 90]x", 15), ("port:80 TO 90", 8),
    # in bytes
    ("größe", 7), ("größe:ö b", 11),
    # one too many
    ("NOT " * 101 + "name:x", 403), ("(" * 101 + "name:x" + ")" * 101, 100), ("NOT (" * 50 + "(name:x)" + ")" * 50, 250),
]


def queries():
    """What each query finds among three nodes, and where each text that is none stops to begin one."""
    yield ("POST", "/organizations", '{"name":"nu"}', uri(N))
    for name, body in FLEET.items():
        yield ("POST", N + "/nodes", body, uri(N + "/nodes/" + name))
    for text, names in QUERIES:
        yield ("POST", N + "/search/node" + q(text), "{}", page(parts(N + "/nodes", *names.split())))
    for text, place in NO_QUERIES:
        yield ("GET", N + "/search/node" + q(text), "", bad_query(place))


# a node whose levels hide one another, the value that each path shows of it, and of two others
LEVELS = """{"name":"one","automatic":{"a":1,"chef_type":null,"n":null,"name":"shown","t":{"u":"auto"}},
 "override":{"a":2,"b":2,"n":2,"t":{"u":"over","v":"over"}},
 "normal":{"a":3,"b":3,"c":3,"e":"","f":false,"n":3},
 "default":{"a":4,"b":4,"c":4,"d":4,"e":"x","f":true,"l":[1,{"m":"x"}],"o":{},"x":null,"z":0}}"""
SHOWN = [
    ("one", '["a"]', "1"), ("one", '["b"]', "2"), ("one", '["c"]', "3"), ("one", '["d"]', "4"),
    # null is passed over; false, 0, the empty text and an empty Dict aren't
    ("one", '["n"]', "2"), ("one", '["f"]', "false"), ("one", '["z"]', "0"), ("one", '["e"]', '""'), ("one", '["o"]', "{}"), ("one", '["x"]', "null"),
    # one level's value whole, also where a lower one has more in it
    ("one", '["t"]', '{"u":"auto"}'), ("one", '["t","u"]', '"auto"'), ("one", '["t","v"]', '"over"'),
    # what isn't there, or stands below what is no Dict
    ("one", '["none"]', "null"), ("one", '["t","u","w"]', "null"), ("one", '["a","b"]', "null"), ("one", '["o","p"]', "null"), ("one", '["t_u"]', "null"), ("one", '[""]', "null"),
    ("one", '["l"]', '[1,{"m":"x"}]'), ("one", '["l","0"]', "null"), ("one", '["l","m"]', "null"),
    # where no level has one, the node itself; a level's own value comes before
    ("one", '["chef_environment"]', '"_default"'), ("one", '["run_list"]', "[]"), ("one", '["chef_type"]', '"node"'), ("one", '["name"]', '"shown"'),
    ("one", '["normal","c"]', "3"), ("one", '["default","a"]', "4"), ("one", '["override","t","v"]', '"over"'), ("one", '["automatic","n"]', "null"),
    # the empty path is the whole: of a node, that of its first level
    ("one", "[]", '{"a":1,"chef_type":null,"n":null,"name":"shown","t":{"u":"auto"}}'), ("two", "[]", "{}"),
    ("two", '["name"]', '"two"'), ("two", '["a"]', "null"), ("two", '["run_list"]', '["recipe[a]"]'),
]

# bodies that ask for no partial search
NO_PARTIALS = [
    ("", NOT_JSON), ("{", NOT_JSON), ('{"v":["c"]', NOT_JSON), ('{"v":[1.5]}', NOT_WHOLE), ('{"v":["c"],"w":1.5}', NOT_WHOLE), ('{"v":%s}' % DEEP, TOO_DEEP),
    ("[]", bad("body")), ('["v"]', bad("body")), ('"v"', bad("body")), ("7", bad("body")), ("true", bad("body")), ("null", bad("body")),
    ('{"v":1}', bad("v")), ('{"v":"c"}', bad("v")), ('{"v":null}', bad("v")), ('{"v":false}', bad("v")), ('{"v":{}}', bad("v")), ('{"v":{"c":["c"]}}', bad("v")),
    ('{"v":[1]}', bad("v")), ('{"v":["c",1]}', bad("v")), ('{"v":["c",null]}', bad("v")), ('{"v":[["c"]]}', bad("v")), ('{"v":[{}]}', bad("v")),
    # the first in byte order, wherever it stands
    ('{"a":["a"],"w":1,"b":[1]}', bad("b")), ('{"b":1,"a":["a"],"B":2}', bad("B")), ('{"v":1,"":[1]}', bad("")), ('{"v":["c"],"v":1}', bad("v")),
    ('{"ü":1,"v":["c"]}', bad("ü")), (r'{"a\"b":1}', bad(r"a\"b")),
]


def partial_searches():
    """What rows of a partial search show, and bodies that ask for none."""
    nodes = X + "/search/node"
    yield ("POST", "/organizations", '{"name":"xi"}', uri(X))
    yield ("POST", X + "/nodes", LEVELS, uri(X + "/nodes/one"))
    yield ("POST", X + "/nodes", '{"name":"two","run_list":["a"]}', uri(X + "/nodes/two"))
    for name, path, value in SHOWN:
        yield ("POST", nodes + q("name:" + name), '{"v":%s}' % path, page([part(X + "/nodes/" + name, '{"v":%s}' % value)]))
    # the keys are in byte order, however they are sent; of one that comes twice the last counts
    for body, one, two in (
        ("{}", "{}", "{}"),
        ('{"b":["b"],"a":["a"],"B":["c"],"":["d"],"n":["name"]}', '{"":4,"B":3,"a":1,"b":2,"n":"shown"}', '{"":null,"B":null,"a":null,"b":null,"n":"two"}'),
        ('{"v":1,"v":["c"]}', '{"v":3}', '{"v":null}'),
        ('{"v":["a"],"v":["c"]}', '{"v":3}', '{"v":null}'),
        (r'{"a\"\u00fc":["d"],"data":["a"],"url":["b"]}', r'{"a\"ü":4,"data":1,"url":2}', r'{"a\"ü":null,"data":null,"url":null}'),
    ):
        yield ("POST", nodes, body, page([part(X + "/nodes/one", one), part(X + "/nodes/two", two)]))
    yield ("POST", nodes + "?start=1", '{"v":["a"]}', page([part(X + "/nodes/two", '{"v":null}')], 1, 2))
    yield ("POST", nodes + "?rows=0", '{"v":["a"]}', page([], 0, 2))
    # in what is no node, no key is a level
    item = '{"automatic":{"a":1},"default":{"b":2},"id":"i","n":null,"normal":7}'
    yield ("POST", X + "/data", '{"name":"bag"}', uri(X + "/data/bag"))
    yield ("POST", X + "/data/bag", item, uri(X + "/data/bag/i"))
    for path, value in (('["a"]', "null"), ('["automatic","a"]', "1"), ('["automatic"]', '{"a":1}'), ('["b"]', "null"), ('["n"]', "null"), ('["id"]', '"i"'), ("[]", item)):
        yield ("POST", X + "/search/bag", '{"v":%s}' % path, page([part(X + "/data/bag/i", '{"v":%s}' % value)]))
    for body, due in NO_PARTIALS:
        yield ("POST", nodes, body, due)


def what_searches_refuse():
    """Indexes that aren't there, paths and methods, and what comes before what."""
    search, none = X + "/search", "/organizations/none"
    # no index: the parameters and the body come first, and all of them
    for name in ("nobag", "nodes", "Node", "user", "users", "group", "data", "_acl", "e" * 255):
        yield ("GET", search + "/" + name, "", NOT_FOUND)
        yield ("POST", search + "/" + name, "{}", NOT_FOUND)
    yield ("GET", search + "/nobag?q=", "", bad_query(0))
    yield ("GET", search + "/nobag?start=x", "", bad_parameter("start"))
    yield ("GET", search + "/nobag?rows=x", "", bad_parameter("rows"))
    yield ("POST", search + "/nobag", "", NOT_JSON)
    yield ("POST", search + "/nobag", "[]", bad("body"))
    yield ("POST", search + "/nobag", '{"v":1}', bad("v"))
    # of no name's form: the body is only read
    for name in ("a%20b", "%c3%a9", "e" * 256):
        yield ("GET", search + "/" + name, "", NOT_FOUND)
        yield ("GET", search + "/" + name + "?q=a:1+b:2", "", bad_query(4))
        yield ("GET", search + "/" + name + "?start=-1", "", bad_parameter("start"))
        yield ("POST", search + "/" + name + "?rows=x", "{", bad_parameter("rows"))
        yield ("POST", search + "/" + name, "", NOT_JSON)
        yield ("POST", search + "/" + name, '{"v":1.5}', NOT_WHOLE)
        for body in ("[]", '{"v":1}', "{}"):
            yield ("POST", search + "/" + name, body, NOT_FOUND)
    # methods and paths
    for method in ("PUT", "DELETE", "PATCH", "get", "post"):
        yield (method, search + "/node", "{", NOT_ALLOWED)
        yield (method, none + "/search/node?rows=x", "", NOT_ALLOWED, by("eve"))
    for method in ("POST", "PUT", "DELETE", "PATCH"):
        yield (method, search, "{", NOT_ALLOWED)
        yield (method, none + "/search", "", NOT_ALLOWED, by("eve"))
    for path in ("/search/", "/search/node/", "/search/node/one", "/search/a%2Fb", "/search/%ff", "/searches"):
        yield ("GET", X + path, "", NOT_FOUND)
    yield ("GET", "/search/node", "", NOT_FOUND)
    yield ("GET", X + "/%73earch/%6eode?rows=0", "", page([], 0, 2))
    yield ("GET", search + "?q=&rows=x&start", "", indexes("xi", "bag"))
    # the version, the organisation and the caller come before the parameters and the body
    for row in (("GET", search, ""), ("GET", search + "/node?rows=x", ""), ("POST", search + "/node", "{")):
        yield (*row, NOT_TAKEN, OPERATOR + "X-Ops-Server-API-Version: 7\r\n")
        yield (*row, NOT_TAKEN, by("eve") + "X-Ops-Server-API-Version: 2\r\n")
        yield (*row, UNKNOWN, by("eve"))
        yield (*row, UNKNOWN, "")
        yield (*row, UNKNOWN, OPERATOR + OPERATOR)
        yield (row[0], row[1].replace(X, none), row[2], NOT_FOUND, by("eve"))
    yield ("GET", search + "/nobag", "", UNKNOWN, by("eve"))
    yield ("GET", search + "/node" + q("name:two"), "", page([node("two", run_list='["recipe[a]"]')]), OPERATOR + "X-Ops-Server-API-Version: 1\r\n")


def who_may_search():
    """A caller finds what he may read, and nothing tells him of the rest."""
    search, read_a2 = R + "/search/node", R + "/nodes/a2/_acl/read"
    seen = lambda caller, *names: ("POST", search, "{}", page(parts(R + "/nodes", *names)), by(caller))
    yield ("POST", "/organizations", '{"name":"rho"}', uri(R))
    for name in ("ann", "bob"):
        yield ("POST", R + "/users", '{"username":"%s"}' % name, uri(R + "/users/" + name))
    yield ("POST", R + "/clients", '{"name":"web1"}', uri(R + "/clients/web1"))
    for name in ("a1", "a2", "a3", "a4"):
        yield ("POST", R + "/nodes", '{"name":"%s"}' % name, uri(R + "/nodes/" + name))
    for caller in ("pivotal", "ann", "web1"):
        yield seen(caller, "a1", "a2", "a3", "a4")
        yield ("GET", R + "/search", "", indexes("rho"), by(caller))
    # a node that ann may not read is neither shown nor counted, and places are counted without it
    yield ("PUT", read_a2, permission("read", groups=A), (200, "{}"))
    yield ("GET", R + "/nodes/a2", "", missing("read"), by("ann"))
    yield seen("ann", "a1", "a3", "a4")
    yield ("GET", search + q("name:a2"), "", page([]), by("ann"))
    yield ("GET", search + q("name:a2"), "", page([node("a2")]))
    yield ("GET", search + "?rows=1&start=1", "", page([node("a3")], 1, 3), by("ann"))
    yield ("GET", search + "?rows=1&start=1", "", page([node("a2")], 1, 4))
    yield ("GET", search + "?rows=0", "", page([], 0, 3), by("ann"))
    yield ("GET", search + "?start=3", "", page([], 3, 3), by("ann"))
    yield ("GET", search + q("NOT name:a3"), "", page([node("a1"), node("a4")]), by("ann"))
    yield ("POST", search + q("name:a*"), '{"n":["name"]}', page([part(R + "/nodes/" + name, '{"n":"%s"}' % name) for name in ("a1", "a3", "a4")]), by("ann"))
    yield seen("web1", "a1", "a3", "a4")
    yield seen("pivotal", "a1", "a2", "a3", "a4")
    # an actor of the list, a member of a listed group, and one no longer
    yield ("PUT", read_a2, permission("read", ["web1"]), (200, "{}"))
    yield seen("web1", "a1", "a2", "a3", "a4")
    yield seen("ann", "a1", "a3", "a4")
    yield ("POST", R + "/groups", '{"groupname":"ops"}', uri(R + "/groups/ops"))
    yield ("PUT", R + "/groups/ops", '{"actors":{"users":["ann"]}}', (200, group("rho", "ops", ["ann"])))
    yield ("PUT", read_a2, permission("read", groups=["ops"]), (200, "{}"))
    yield seen("ann", "a1", "a2", "a3", "a4")
    yield seen("web1", "a1", "a3", "a4")
    yield ("PUT", R + "/groups/ops", "{}", (200, group("rho", "ops")))
    yield seen("ann", "a1", "a3", "a4")
    # who made it counts no more than his entry does
    yield ("POST", R + "/nodes", '{"name":"a5"}', uri(R + "/nodes/a5"), by("web1"))
    yield seen("web1", "a1", "a3", "a4", "a5")
    yield ("PUT", R + "/nodes/a5/_acl/read", permission("read"), (200, "{}"))
    yield seen("web1", "a1", "a3", "a4")
    yield ("GET", R + "/nodes/a5", "", missing("read"), by("web1"))
    yield seen("pivotal", "a1", "a2", "a3", "a4", "a5")
    # the container's list isn't asked
    yield ("PUT", R + "/containers/nodes/_acl/read", permission("read"), (200, "{}"))
    yield ("GET", R + "/nodes", "", missing("read"), by("ann"))
    yield seen("ann", "a1", "a3", "a4")
    # the other indexes: from the start clients read no clients
    yield ("GET", R + "/search/client", "", page([client("web1")]), by("ann"))
    yield ("GET", R + "/search/client", "", page([]), by("web1"))
    yield ("GET", R + "/search/environment", "", page([environment("_default")]), by("web1"))
    yield ("PUT", R + "/environments/_default/_acl/read", permission("read", groups=AU), (200, "{}"))
    yield ("GET", R + "/search/environment", "", page([]), by("web1"))
    yield ("POST", R + "/roles", '{"name":"r"}', uri(R + "/roles/r"), by("ann"))
    yield ("GET", R + "/search/role", "", page([role("r")]), by("web1"))
    yield ("PUT", R + "/roles/r/_acl/read", permission("read", ["bob"]), (200, "{}"))
    yield ("GET", R + "/search/role", "", page([]), by("ann"))
    yield ("GET", R + "/search/role", "", page([role("r")]), by("bob"))
    # a bag's own list counts for its items; one that may not be read is there, and shows nothing
    secret, item = R + "/search/secret", '{"id":"k","v":1}'
    yield ("POST", R + "/data", '{"name":"secret"}', uri(R + "/data/secret"))
    yield ("POST", R + "/data/secret", item, uri(R + "/data/secret/k"))
    yield ("GET", secret, "", page([item]), by("bob"))
    yield ("GET", secret, "", page([item]), by("web1"))
    yield ("PUT", R + "/data/secret/_acl/read", permission("read", groups=A), (200, "{}"))
    yield ("GET", R + "/data/secret", "", missing("read"), by("bob"))
    yield ("GET", secret, "", page([]), by("bob"))
    yield ("GET", secret + "?start=2", "", page([], 2, 0), by("bob"))
    yield ("GET", secret + q("v:1"), "", page([]), by("web1"))
    yield ("POST", secret, '{"v":["v"]}', page([]), by("bob"))
    yield ("POST", secret, '{"v":1}', bad("v"), by("bob"))
    yield ("GET", secret + "?rows=x", "", bad_parameter("rows"), by("bob"))
    yield ("GET", R + "/search/nobag", "", NOT_FOUND, by("bob"))
    yield ("GET", R + "/search", "", indexes("rho", "secret"), by("bob"))
    yield ("GET", secret, "", page([item]))
    # let into `admins`, he finds it; deleted, he is known no longer
    yield ("PUT", R + "/groups/admins", '{"actors":{"users":["bob"]}}', (200, group("rho", "admins", ["bob"])))
    yield ("GET", secret, "", page([item]), by("bob"))
    yield ("DELETE", R + "/users/bob", "", (200, '{"username":"bob"}'))
    yield ("GET", secret, "", UNKNOWN, by("bob"))


def each_organisation_searches_its_own():
    """What `beta` has is found by `beta` alone, also where two organisations have nodes of one name with the same in them."""
    same = '{"name":"n2","normal":{"a":{"b":"xy"}}}'
    ours, theirs = M + "/search/node" + q("b:xy"), B + "/search/node" + q("b:xy")
    n2 = page([node("n2", '{"a":{"b":"xy"}}')])
    yield ("GET", O + "/search/node" + q("o:*"), "", page([node("web1", '{"o":"a"}')]))
    yield ("GET", B + "/search/node" + q("o:*"), "", page([node("web1", '{"o":"b"}')]))
    yield ("GET", B + "/search/node" + q("o:a"), "", page([]))
    yield ("GET", ours, "", n2)
    yield ("GET", theirs, "", page([]))
    yield ("POST", B + "/nodes", same, uri(B + "/nodes/n2"))
    yield ("GET", theirs, "", n2)
    yield ("GET", ours, "", n2)
    yield ("POST", B + "/search/node" + q("b:xy"), '{"v":["a"]}', page([part(B + "/nodes/n2", '{"v":{"b":"xy"}}')]))
    yield ("DELETE", M + "/nodes/n2", "", (200, node("n2", '{"a":{"b":"xy"}}')))
    yield ("GET", ours, "", page([]))
    yield ("GET", theirs, "", n2)
    yield ("POST", M + "/nodes", same, uri(M + "/nodes/n2"))
    yield ("DELETE", B + "/nodes/n2", "", (200, node("n2", '{"a":{"b":"xy"}}')))
    yield ("GET", theirs, "", page([]))
    yield ("GET", ours, "", n2)
    yield ("GET", B + "/search/dogs", "", NOT_FOUND)
    yield ("GET", B + "/search", "", indexes("beta"))
    yield ("GET", B + "/search/node", "", UNKNOWN, by("web1"))
    yield ("GET", M + "/search/node?rows=0", "", page([], 0, 3), by("web1"))


def searches():
    yield from the_worked_searches()
    yield from parameters_of_a_search()
    yield from a_search_follows_what_changes()
    yield from each_index()
    yield from a_bag_is_an_index()
    yield from queries()
    yield from partial_searches()
    yield from what_searches_refuse()
    yield from who_may_search()
    yield from each_organisation_searches_its_own()
