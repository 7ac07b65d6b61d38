"""The errands of `knife`: words, what they send, what they print, and how they end, written by hand from docs/reference/knife.md
and objects.md. A request is told as its method, its target and its body; a target without a slash at its front stands below
the organisation `acme`.
"""
import hashlib

from messages import node, reply

O = "/organizations/acme"
# The MD5 of `a` (RFC 1321, appendix A.5), and that of a file that is no text.
SUM_A, OCTETS = "0cc175b9c0f1b6a831c399e269772661", b"\xff\x00\n"
SUM = hashlib.md5(OCTETS).hexdigest()
# The id of the first sandbox of `acme`.
BOX = hashlib.md5(b"acme\n1").hexdigest()


def version(name, number, recipes=""):
    """The body of a cookbook's version."""
    return '{"version":"%s","metadata":{"name":"%s","version":"%s"},"recipes":[%s]}' % (number, name, number, recipes)


# What stands before the first errand, since `knife` has no words for it.
GIVEN = [
    ("POST", "/organizations", '{"name":"acme"}'),
    ("POST", "/organizations", '{"name":"beta"}'),
    ("POST", O + "/users", '{"username":"bob"}'),
    ("POST", O + "/users", '{"username":"ann"}'),
    ("PUT", O + "/groups/admins", '{"actors":{"users":["ann"]}}'),
    ("POST", O + "/sandboxes", '{"checksums":{"%s":null,"%s":null}}' % (SUM_A, SUM)),
    ("PUT", O + "/files/" + SUM_A, "a"),
    ("PUT", O + "/files/" + SUM, OCTETS),
    ("PUT", O + "/sandboxes/" + BOX, '{"is_completed":true}'),
    ("PUT", O + "/cookbooks/ntp/1.0.0", version("ntp", "1.0.0", '{"name":"default.yml","path":"recipes/default.yml","checksum":"%s"}' % SUM_A)),
    ("PUT", O + "/cookbooks/ntp/1.10.0", version("ntp", "1.10.0")),
    ("PUT", O + "/cookbooks/ntp/1.9.0", version("ntp", "1.9.0")),
    ("PUT", O + "/cookbooks/apt/2.0.0", version("apt", "2.0.0")),
]

# The files that words name, and what is sent of them.
FILES = {
    "web.json": '{ "name": "web",\n  "run_list": ["ntp", "role[base]"], "description": "W\u00e9b" }\n',
    "web again.json": '{"name":"web"}',
    "prod.json": '{"name":"prod","cookbook_versions":{"ntp":"~> 1.0"}}',
    "al.json": '{"uid": 7, "id": "al", "keys": ["ssh-ed25519 A", null, {"on": true}]}',
    "-zoe": '{"id":"zoe","name":"no"}',
}
WEB = '{"description":"W\u00e9b","name":"web","run_list":["ntp","role[base]"]}'
PROD = '{"cookbook_versions":{"ntp":"~> 1.0"},"name":"prod"}'
AL = '{"id":"al","keys":["ssh-ed25519 A",null,{"on":true}],"uid":7}'

NODE = """automatic: {}
chef_environment: "_default"
chef_type: node
default: {}
json_class: "Chef::Node"
name: web2
normal: {}
override: {}
run_list:%s
"""
ROLE = """chef_type: role
default_attributes: {}
description: "W\u00e9b"
env_run_lists: {}
json_class: "Chef::Role"
name: web
override_attributes: {}
run_list:
  - "recipe[ntp]"
  - "role[base]"
"""
ENVIRONMENT = """chef_type: environment
cookbook_versions:
  ntp: "~> 1.0"
default_attributes: {}
description: ""
json_class: "Chef::Environment"
name: prod
override_attributes: {}
"""
GROUP = """actors:
  - ann
clients: []
groupname: admins
groups: []
name: admins
orgname: acme
users:
  - ann
"""
ITEM = """id: al
keys:
  - "ssh-ed25519 A"
  - null
  -
    on: true
uid: 7
"""
MANIFEST = """attributes: []
chef_type: cookbook_version
cookbook_name: ntp
definitions: []
files: []
"frozen?": false
json_class: "Chef::CookbookVersion"
libraries: []
metadata:
  dependencies: {}
  name: ntp
  version: "1.0.0"
name: ntp-1.0.0
providers: []
recipes:
  -
    checksum: "%s"
    name: default.yml
    path: recipes/default.yml
    specificity: default
    url: /organizations/acme/files/%s
resources: []
root_files: []
templates: []
version: "1.0.0"
""" % (SUM_A, SUM_A)
VERSIONS = (
    '{"ntp":{"url":"/organizations/acme/cookbooks/ntp","versions":[{"url":"/organizations/acme/cookbooks/ntp/1.10.0","version":"1.10.0"},'
    '{"url":"/organizations/acme/cookbooks/ntp/1.9.0","version":"1.9.0"}]}}\n'
)


def changed(name, *items):
    """The requests of a change of a node's run list that leaves these items."""
    return ["GET nodes/" + name, "PUT nodes/%s %s" % (name, node(name, run_list="[%s]" % ",".join('"%s"' % item for item in items)))]


def lines(*items):
    return "".join(item + "\n" for item in items)


# Each row of the table of words, in an order in which each sees what those before it left: the words as a shell has them, the
# requests, and what is printed.
ROWS = [
    ("node list", ["GET nodes"], ""),
    ("node create web2", ['POST nodes {"name":"web2"}'], "Created node[web2]\n"),
    ("node create web10", ['POST nodes {"name":"web10"}'], "Created node[web10]\n"),
    ("node create Web", ['POST nodes {"name":"Web"}'], "Created node[Web]\n"),
    ("node list", ["GET nodes"], "Web\nweb10\nweb2\n"),
    ("node show web2", ["GET nodes/web2"], NODE % " []"),
    # an item comes last where it is new, and is written as it is stored
    ("node run_list add web2 ntp", changed("web2", "recipe[ntp]"), lines("recipe[ntp]")),
    ("node run_list add web2 role[web]", changed("web2", "recipe[ntp]", "role[web]"), lines("recipe[ntp]", "role[web]")),
    ("node run_list add web2 ntp", changed("web2", "recipe[ntp]", "role[web]"), lines("recipe[ntp]", "role[web]")),
    ("node run_list add web2 recipe[ntp]", changed("web2", "recipe[ntp]", "role[web]"), lines("recipe[ntp]", "role[web]")),
    ("node run_list add web2 a::x@1.0", changed("web2", "recipe[ntp]", "role[web]", "recipe[a::x@1.0]"), lines("recipe[ntp]", "role[web]", "recipe[a::x@1.0]")),
    ("node run_list remove web2 role[web]", changed("web2", "recipe[ntp]", "recipe[a::x@1.0]"), lines("recipe[ntp]", "recipe[a::x@1.0]")),
    ("node run_list remove web2 none", changed("web2", "recipe[ntp]", "recipe[a::x@1.0]"), lines("recipe[ntp]", "recipe[a::x@1.0]")),
    ("node show web2", ["GET nodes/web2"], NODE % '\n  - "recipe[ntp]"\n  - "recipe[a::x@1.0]"'),
    ("node run_list remove web2 a::x@1.0", changed("web2", "recipe[ntp]"), lines("recipe[ntp]")),
    ("node run_list remove web2 ntp", changed("web2"), ""),
    ("node delete web2", ["DELETE nodes/web2"], "Deleted node[web2]\n"),
    ("node list", ["GET nodes"], "Web\nweb10\n"),
    # what isn't there yet is posted where the PUT is answered 404
    ("role from file web.json", ["PUT roles/web " + WEB, "POST roles " + WEB], "Updated role[web]\n"),
    ("role list", ["GET roles"], "web\n"),
    ("role show web", ["GET roles/web"], ROLE),
    ("role from file 'web again.json'", ['PUT roles/web {"name":"web"}'], "Updated role[web]\n"),
    ("role delete web", ["DELETE roles/web"], "Deleted role[web]\n"),
    ("role list", ["GET roles"], ""),
    ("environment from file prod.json", ["PUT environments/prod " + PROD, "POST environments " + PROD], "Updated environment[prod]\n"),
    ("environment from file ./prod.json", ["PUT environments/prod " + PROD], "Updated environment[prod]\n"),
    ("environment list", ["GET environments"], "_default\nprod\n"),
    ("environment show prod", ["GET environments/prod"], ENVIRONMENT),
    ("client create ci", ['POST clients {"name":"ci"}'], "Created client[ci]\n"),
    ("client create web1", ['POST clients {"name":"web1"}'], "Created client[web1]\n"),
    ("client list", ["GET clients"], "ci\nweb1\n"),
    ("client show ci", ["GET clients/ci"], "name: ci\nvalidator: false\n"),
    ("client delete web1", ["DELETE clients/web1"], "Deleted client[web1]\n"),
    ("group list", ["GET groups"], "admins\nbilling-admins\nclients\nusers\n"),
    ("group show admins", ["GET groups/admins"], GROUP),
    ("data bag list", ["GET data"], ""),
    ("data bag create keys", ['POST data {"name":"keys"}'], "Created data_bag[keys]\n"),
    ("data bag list", ["GET data"], "keys\n"),
    ("data bag from file keys -- -zoe", ['PUT data/keys/zoe {"id":"zoe","name":"no"}', 'POST data/keys {"id":"zoe","name":"no"}'], "Updated data_bag_item[keys::zoe]\n"),
    ("data bag from file keys al.json", ["PUT data/keys/al " + AL, "POST data/keys " + AL], "Updated data_bag_item[keys::al]\n"),
    ("data bag from file keys al.json", ["PUT data/keys/al " + AL], "Updated data_bag_item[keys::al]\n"),
    ("data bag show keys", ["GET data/keys"], "al\nzoe\n"),
    ("data bag show keys al", ["GET data/keys/al"], ITEM),
    ("user list", ["GET users"], "ann\nbob\n"),
    ("cookbook list", ["GET cookbooks"], "apt 2.0.0\nntp 1.10.0\n"),
    ("cookbook show ntp 1.0.0", ["GET cookbooks/ntp/1.0.0"], MANIFEST),
    ("raw files/" + SUM_A, ["GET files/" + SUM_A], "a\n"),
    ("raw files/" + SUM, ["GET files/" + SUM], OCTETS + b"\n"),
    ("cookbook delete ntp 1.0.0", ["DELETE cookbooks/ntp/1.0.0"], "Deleted cookbook[ntp version 1.0.0]\n"),
    ("raw cookbooks/ntp", ["GET cookbooks/ntp"], VERSIONS),
    ("search node 'name:web* AND chef_type:node'", ["GET search/node?q=name%3Aweb*+AND+chef_type%3Anode"], "1 items found\nweb10\n"),
    ("search node *:*", ["GET search/node?q=*%3A*"], "2 items found\nWeb\nweb10\n"),
    ("search role name:none", ["GET search/role?q=name%3Anone"], "0 items found\n"),
    ("search environment *:*", ["GET search/environment?q=*%3A*"], "2 items found\n_default\nprod\n"),
    ("search client name:ci", ["GET search/client?q=name%3Aci"], "1 items found\nci\n"),
    ("search keys *:*", ["GET search/keys?q=*%3A*"], "2 items found\nal\nzoe\n"),
    ("search keys uid:7", ["GET search/keys?q=uid%3A7"], "1 items found\nal\n"),
    ("raw clients/ci", ["GET clients/ci"], '{"name":"ci","validator":false}\n'),
    ("raw /organizations/beta/nodes --user pivotal", ["GET /organizations/beta/nodes"], "{}\n"),
    ("raw 'search/node?q=name:w* AND name:?e*&rows=0'", ["GET search/node?q=name:w*%20AND%20name:?e*&rows=0"], '{"rows":[],"start":0,"total":1}\n'),
    ("data bag delete keys", ["DELETE data/keys"], "Deleted data_bag[keys]\n"),
    ("environment delete prod", ["DELETE environments/prod"], "Deleted environment[prod]\n"),
    # options before, between and behind the words, and words that begin with a dash
    ("--org=beta group --user=pivotal list", ["GET /organizations/beta/groups"], "admins\nbilling-admins\nclients\nusers\n"),
    ("--user pivotal -- raw /organizations", ["GET /organizations"], '{"acme":"/organizations/acme","beta":"/organizations/beta"}\n'),
    ("-- node create -1", ['POST nodes {"name":"-1"}'], "Created node[-1]\n"),
    ("node delete -- -1", ["DELETE nodes/-1"], "Deleted node[-1]\n"),
]

# Behind these, words whose last request is answered a status that isn't expected.
REFUSED = [
    ("node show none", ["GET nodes/none"], 404),
    ("node show 'a b/\u00e9?'", ["GET nodes/a%20b%2F%C3%A9%3F"], 404),
    ("node list --org 'o p'", ["GET /organizations/o%20p/nodes"], 404),
    ("node list --user nobody", ["GET nodes"], 401),
    ("node list --user 'a b'", ["GET nodes"], 401),
    ("node create Web", ['POST nodes {"name":"Web"}'], 409),
    ("node create 'a \"b'", ['POST nodes {"name":"a \\"b"}'], 400),
    ("node delete none", ["DELETE nodes/none"], 404),
    ("client create x --user bob", ['POST clients {"name":"x"}'], 403),
    ("environment delete _default", ["DELETE environments/_default"], 405),
    # no PUT where the GET failed, and no POST but behind a 404
    ("node run_list add none ntp", ["GET nodes/none"], 404),
    ("node run_list remove none ntp", ["GET nodes/none"], 404),
    ("node run_list add Web 'a b'", changed("Web", "a b"), 400),
    ("node run_list add Web ntp --user ci", changed("Web", "recipe[ntp]"), 403),
    ("role from file web.json --user nobody", ["PUT roles/web " + WEB], 401),
    ("role from file web.json --user ci", ["PUT roles/web " + WEB, "POST roles " + WEB], 403),
    ("data bag from file none al.json", ["PUT data/none/al " + AL, "POST data/none " + AL], 404),
    ("search none *:*", ["GET search/none?q=*%3A*"], 404),
    ("search node ''", ["GET search/node?q="], 400),
    ("raw ../acme", ["GET ../acme"], 404),
    ("raw 'no such[#]%2F'", ["GET no%20such%5B%23%5D%2F"], 404),
    ("raw /organizations", ["GET /organizations"], 403),
]

# Words that are no row of the table.
NO_ROWS = [
    "node", "node frob", "nodes list", "node list a", "node show", "node show a b", "node create", "node from file web.json",
    "node run_list", "node run_list add a", "node run_list set a b", "node run_list add a b c", "role create a", "role run_list add a b",
    "environment create a", "client from file web.json", "group create a", "group delete a", "role from file", "role from web.json",
    "role from file web.json web.json", "data list", "data bag", "data bag show", "data bag show a b c", "data bag delete a b",
    "data bag from file al.json", "user", "user show ann", "user list a", "cookbook show ntp", "cookbook list ntp",
    "cookbook delete ntp", "search node", "search node a b", "raw", "raw a b", "'node list'", "''", "Node list", "-- --",
]

# Words of which the options aren't as they should be; U stands for the URL of a server.
BAD_OPTIONS = [
    "", "node list", "--server U --org acme --user ann", "--server U --org acme --user ann --", "--server U --org acme node list",
    "--server U --user ann node list", "--org acme --user ann node list", "--server U --org acme --user ann --user ann node list",
    "--server U --org=acme --org acme --user ann node list", "--server U --org acme --user -ann node list",
    "--server U --org acme --user --org node list", "--server U --org acme --user ann node list -x",
    "--server U --org acme --user ann node list --help", "--server U --org acme node list --user", "--server U --orgs acme --user ann node list",
    "--server U --org acme -- --user ann node list", "--server=Ux --org acme --user ann node list", "--server=U/x --org acme --user ann node list",
    "--server=U?q --org acme --user ann node list", "--server=http://localhost:0 --org acme --user ann node list",
    "--server=https://localhost --org acme --user ann node list", "--server=http:// --org acme --user ann node list",
    "--server=HTTP://localhost --org acme --user ann node list", "--server=http://ann@localhost --org acme --user ann node list",
    "--server=http://localhost: --org acme --user ann node list", "--server=http://localhost:08 --org acme --user ann node list",
    "--server=http://localhost:65536 --org acme --user ann node list", "--server=localhost --org acme --user ann node list",
    "--server= --org acme --user ann node list",
]

# Files of which nothing can be sent: the words before their names, and what they hold, if they are there.
ROLE_FILE, ITEM_FILE = "role from file", "data bag from file keys"
BAD_FILES = [
    (ROLE_FILE, "no JSON", "{"), (ROLE_FILE, "empty", ""), (ROLE_FILE, "a list", '["name"]'), (ROLE_FILE, "no name", "{}"),
    (ROLE_FILE, "a number", '{"name":1}'), (ROLE_FILE, "a text", '{"name":"a b"}'), (ROLE_FILE, "an id", '{"id":"web"}'),
    (ROLE_FILE, "a fraction", '{"name":"web","override_attributes":{"n":1.5}}'),
    (ROLE_FILE, "too deep", '{"name":"web","n":%s%s}' % ("[" * 100, "]" * 100)),
    (ITEM_FILE, "a name", '{"name":"al"}'), (ITEM_FILE, "null", '{"id":null}'),
    (ITEM_FILE, "wrapped", '{"json_class":"Chef::DataBagItem","raw_data":{"id":"al"}}'),
    (ROLE_FILE, "not there", None), (ROLE_FILE, "no/folder", None), (ROLE_FILE, "", None), (ROLE_FILE, "web.json/x", None),
]

# ---- by a server that answers what is told here


def sent_back(body, status=200, head=""):
    body = body.encode()
    return b"HTTP/1.1 %d X\r\n%sContent-Length: %d\r\n\r\n" % (status, head.encode(), len(body)) + body


OK, CREATED, MISSING = sent_back("{}"), sent_back("{}", 201), sent_back("{}", 404)
W = sent_back('{"w":1}')
RUN_LIST = sent_back('{"run_list":["recipe[a]"]}')
DEEP = "[" * 101 + "]" * 101
PUT_WEB, POST_WEB = ["PUT roles/web"], ["PUT roles/web", "POST roles"]
GET_W, PUT_W = ["GET nodes/w"], ["GET nodes/w", "PUT nodes/w"]

# Errands by the replies to their requests: the status of the last where it isn't expected, and else 0; what is printed; and the
# requests, without their bodies.
TALKS = [
    ("role from file web.json", [OK], 0, "Updated role[web]\n", PUT_WEB),
    ("role from file web.json", [CREATED], 0, "Updated role[web]\n", PUT_WEB),
    ("role from file web.json", [MISSING, CREATED], 0, "Updated role[web]\n", POST_WEB),
    ("role from file web.json", [MISSING, OK], 0, "Updated role[web]\n", POST_WEB),
    *(("role from file web.json", [sent_back("{}", status), CREATED], status, "", PUT_WEB) for status in (202, 204, 400, 403, 405, 409, 410, 500, 501)),
    *(("role from file web.json", [MISSING, sent_back("{}", status)], status, "", POST_WEB) for status in (202, 400, 404, 409, 500)),
    ("node run_list add w b", [RUN_LIST, sent_back('{"run_list":["role[z]"]}')], 0, "role[z]\n", PUT_W),
    ("node run_list remove w a", [RUN_LIST, RUN_LIST], 0, "recipe[a]\n", PUT_W),
    *(("node run_list add w b", [sent_back('{"run_list":[]}', status), RUN_LIST], status, "", GET_W) for status in (202, 404, 409, 500)),
    *(("node run_list add w b", [RUN_LIST, sent_back('{"run_list":[]}', status)], status, "", PUT_W) for status in (202, 404, 409, 500)),
    *(("node list", [sent_back("{}", status)], status, "", ["GET nodes"]) for status in (100, 199, 202, 204, 301, 304, 400, 404, 500, 503, 599, 999)),
    # of a body of which nothing is printed nothing is looked at
    ("data bag from file keys al.json", [sent_back("[", 404), sent_back("[", 201)], 0, "Updated data_bag_item[keys::al]\n", ["PUT data/keys/al", "POST data/keys"]),
    ("node create w", [sent_back("[", 201)], 0, "Created node[w]\n", ["POST nodes"]),
    ("node delete w", [sent_back("")], 0, "Deleted node[w]\n", ["DELETE nodes/w"]),
    ("cookbook delete a 1", [sent_back("[")], 0, "Deleted cookbook[a version 1]\n", ["DELETE cookbooks/a/1"]),
]

# Bodies that haven't the form that the words need, with the request that they answer.
MALFORMED = [
    ("node list", "GET nodes", ["", "{", "[]", "null", '{"w":1.5}', '{"w":%s}' % DEEP, '{"w":1}x']),
    ("data bag show keys", "GET data/keys", ["[]", '"keys"']),
    ("node show w", "GET nodes/w", ["", "1.0", DEEP, '{"a":1,}', "\ufeff{}"]),
    ("user list", "GET users", ["{}", '["ann"]', '[{"user":"ann"}]', '[{"user":{"username":1}}]', '[{"username":"ann"}]']),
    ("cookbook list", "GET cookbooks", ["[]", '{"a":[]}', '{"a":{}}', '{"a":{"versions":{}}}', '{"a":{"versions":["1.0.0"]}}', '{"a":{"versions":[{"version":1}]}}']),
    ("search node a:b", "GET search/node?q=a%3Ab", ["[]", '{"total":0}', '{"rows":[]}', '{"rows":{},"total":0}', '{"rows":[],"total":-1}',
                                                    '{"rows":[],"total":"0"}', '{"rows":[{"id":"a"}],"total":1}', '{"rows":[{"name":1}],"total":1}', '{"rows":["a"],"total":1}']),
    ("search keys a:b", "GET search/keys?q=a%3Ab", ['{"rows":[{"name":"a"}],"total":1}']),
    ("node run_list add w a", "GET nodes/w", ["", "[]", "{}", '{"run_list":{}}', '{"run_list":[1]}', '{"run_list":["a b"]}', '{"run_list":["recipe[a"]}']),
    ("node run_list remove w a", "GET nodes/w", ["{}"]),
]

# What is no reply (RFC 9112, sections 4 and 6), or is past a limit.
NO_REPLIES = [
    b"", b"hello", b"\r\n\r\n", b"GET / HTTP/1.1\r\nContent-Length: 0\r\n\r\n",
    W.replace(b"1.1", b"2.0"), W.replace(b"200", b"20"), W.replace(b"200", b"2000"), W.replace(b"HTTP", b"http"),
    b"HTTP/1.1 200 X\r\n\r\n", b"HTTP/1.1 200 X\r\n\r\n{}", b"HTTP/1.1 200 X\r\nTransfer-Encoding: chunked\r\n\r\n2\r\n{}\r\n0\r\n\r\n",
    *(sent_back("{}", head=head) for head in ("transfer-encoding: identity\r\n", "Content-Length: 2\r\n", "content-length: 2\r\n", "a b: c\r\n")),
    *(b"HTTP/1.1 200 X\r\nContent-Length: %s\r\n\r\n{}" % size for size in (b"", b"+2", b"-2", b"2,2", b"0x2", b"2 2", b"0" * 19 + b"02", b"67108865", b"9" * 20)),
    sent_back("{}", head="A: " + "a" * 16_384 + "\r\n"), sent_back("{}", head="a:b\r\n" * 64),
]

# Replies in other forms to `node list`, and what is printed of each.
REPLIES = [
    (b'HTTP/1.0 200 OK\r\nCONTENT-length: \t 00007 \r\n\r\n{"w":1}', "w\n"),
    (b'HTTP/1.1 200 \r\nServer: x\r\nContent-Length: 7\r\nContent-Type: text/plain\r\n\r\n{"w":1}', "w\n"),
    (b'HTTP/1.1 200\nContent-Length: 7\n\n{"w":1}', "w\n"),
    (W.replace(b"200", b"201"), "w\n"), (W + W, "w\n"), (W + b"x", "w\n"),
    (sent_back('{"w":1}', head="a:b\r\n" * 63), "w\n"),
    (sent_back(' {"\\u0062":{},"a":null,"a":[1]} '), "a\nb\n"), (sent_back('{"\u00e9":0,"z":0,"Z":0,"":0}'), "\nZ\nz\n\u00e9\n"),
]

# Replies of which each front is no reply: the words, the replies before it, it, and the request that it answers. The only one,
# the second, the one behind a 404, and one of whose body nothing is looked at.
CUT = [
    ("node list", [], reply(200, '{"w":"%s/nodes/w"}' % O), "GET nodes"),
    ("node run_list add w a", [RUN_LIST], RUN_LIST, "PUT nodes/w"),
    ("role from file web.json", [MISSING], CREATED, "POST roles"),
    ("node delete w", [], OK, "DELETE nodes/w"),
]

# ---- by bin/knife

# Words, what is changed of an environment that says `acme` and `ann`, the request, who asks, the status of the reply, and what is
# printed of it; U is as above.
BY_ENVIRONMENT = [
    ("user list", {}, "GET users", "ann", 200, "ann\nbob\n"),
    ("user list --user bob", {}, "GET users", "bob", 200, "ann\nbob\n"),
    ("--user=bob user list", {"CHEFSITE_USER": ""}, "GET users", "bob", 200, "ann\nbob\n"),
    ("user --org beta list --user=pivotal", {}, "GET /organizations/beta/users", "pivotal", 200, ""),
    ("user list --server U/", {"CHEFSITE_SERVER": "no URL"}, "GET users", "ann", 200, "ann\nbob\n"),
    ("user list", {"CHEFSITE_ORG": "beta", "CHEFSITE_USER": "pivotal"}, "GET /organizations/beta/users", "pivotal", 200, ""),
    ("user list", {"CHEFSITE_USER": "-x"}, "GET users", "-x", 401, ""),
    ("user list", {"CHEFSITE_USER": "a b*"}, "GET users", "a b*", 401, ""),
    # behind `--` nothing is an option
    ("node show -- --user=bob", {}, "GET nodes/--user%3Dbob", "ann", 404, ""),
    ("-- node show --org", {}, "GET nodes/--org", "ann", 404, ""),
    ("--org=beta --user pivotal --server=U user list", {"CHEFSITE_SERVER": "", "CHEFSITE_ORG": "", "CHEFSITE_USER": ""}, "GET /organizations/beta/users", "pivotal", 200, ""),
]
