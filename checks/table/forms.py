"""The forms of requests and replies that the rows of the table are written in."""
PHRASES = {
    200: "OK", 201: "Created", 400: "Bad Request", 401: "Unauthorized", 403: "Forbidden",
    404: "Not Found", 405: "Method Not Allowed", 406: "Not Acceptable", 409: "Conflict",
    412: "Precondition Failed", 413: "Payload Too Large", 501: "Not Implemented",
}
OPERATOR = "X-Ops-UserId: pivotal\r\n"


def error(text):
    return '{"error":["%s"]}' % text


NOT_FOUND, NOT_ALLOWED = (404, error("not found")), (405, error("not allowed"))
NOT_IMPLEMENTED, EXISTS = (501, error("not implemented")), (409, error("already exists"))
NOT_TAKEN, NOT_JSON = (406, error("api version is not taken")), (400, error("body is not JSON"))
UNKNOWN = (401, error("caller is not known"))


def bad(field):
    return 400, error("bad field " + field)


def missing(permission):
    return 403, error("missing %s permission" % permission)


def by(name):
    """The header of a caller."""
    return "X-Ops-UserId: %s\r\n" % name


def uri(path):
    return 201, '{"uri":"%s"}' % path


def node(name, normal="{}", run_list="[]", automatic="{}"):
    return (
        '{"automatic":%s,"chef_environment":"_default","chef_type":"node","default":{},"json_class":"Chef::Node",'
        '"name":"%s","normal":%s,"override":{},"run_list":%s}' % (automatic, name, normal, run_list)
    )


def role(name, run_list="[]", env_run_lists="{}", default_attributes="{}"):
    return (
        '{"chef_type":"role","default_attributes":%s,"description":"","env_run_lists":%s,"json_class":"Chef::Role",'
        '"name":"%s","override_attributes":{},"run_list":%s}' % (default_attributes, env_run_lists, name, run_list)
    )


def environment(name, versions="{}"):
    return (
        '{"chef_type":"environment","cookbook_versions":%s,"default_attributes":{},"description":"",'
        '"json_class":"Chef::Environment","name":"%s","override_attributes":{}}' % (versions, name)
    )


def client(name):
    return '{"name":"%s","validator":false}' % name


def texts(names):
    return "[%s]" % ",".join('"%s"' % name for name in names)


def entry(actors=(), groups=()):
    return '{"actors":%s,"groups":%s}' % (texts(actors), texts(groups))


def acl(create, read, update, delete, grant, actors=()):
    """A whole list of these groups, each entry with the same actors."""
    return '{"create":%s,"delete":%s,"grant":%s,"read":%s,"update":%s}' % tuple(
        entry(actors, groups) for groups in (create, delete, grant, read, update)
    )


def group(org, name, users=(), clients=(), groups=()):
    return '{"actors":%s,"clients":%s,"groupname":"%s","groups":%s,"name":"%s","orgname":"%s","users":%s}' % (
        texts(sorted([*users, *clients])), texts(clients), name, texts(groups), name, org, texts(users),
    )


def permission(word, actors=(), groups=()):
    """The body that gives a permission to these."""
    return '{"%s":%s}' % (word, entry(actors, groups))


def message(row):
    method, target, body = row[:3]
    headers = row[4] if len(row) > 4 else OPERATOR
    size = "Content-Length: %d\r\n" % len(body.encode()) if body else ""
    return ("%s %s HTTP/1.1\r\n%s%s\r\n%s" % (method, target, headers, size, body)).encode()


def reply(due):
    status, body, form = (*due, "application/json")[:3]
    head = "HTTP/1.1 %d %s\r\nContent-Type: %s\r\nContent-Length: %d\r\n\r\n"
    return (head % (status, PHRASES[status], form, len(body.encode())) + body).encode()


O, B = "/organizations/acme", "/organizations/beta"
DEEP = "[" * 101 + "]" * 101
A, AU, AKU = ["admins"], ["admins", "users"], ["admins", "clients", "users"]
