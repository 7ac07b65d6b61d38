"""Requests and the replies that are due, as bytes: what the checks that are written in Python share."""
import signal
import subprocess
import sys

PHRASES = {
    200: "OK", 201: "Created", 400: "Bad Request", 401: "Unauthorized", 403: "Forbidden",
    404: "Not Found", 405: "Method Not Allowed", 406: "Not Acceptable", 409: "Conflict",
    412: "Precondition Failed", 413: "Payload Too Large", 500: "Internal Server Error", 501: "Not Implemented",
}
OPERATOR = "X-Ops-UserId: pivotal\r\n"


def message(method, target, body="", headers=OPERATOR):
    """A request; the body is a text, or bytes that needn't be one."""
    body = body.encode() if isinstance(body, str) else body
    size = "Content-Length: %d\r\n" % len(body) if body else ""
    return ("%s %s HTTP/1.1\r\n%s%s\r\n" % (method, target, headers, size)).encode() + body


def reply(status, body, form="application/json"):
    body = body.encode()
    head = "HTTP/1.1 %d %s\r\nContent-Type: %s\r\nContent-Length: %d\r\n\r\n"
    return (head % (status, PHRASES[status], form, len(body))).encode() + body


def replies(text):
    """The replies of an output, each as its bytes; the last is what is no whole reply, if anything is."""
    found, start = [], 0
    while start < len(text):
        head = text.find(b"\r\n\r\n", start)
        if head < 0:
            return found + [text[start:]]
        size = int(text[start:head].rsplit(b"Content-Length: ", 1)[1])
        found.append(text[start : head + 4 + size])
        start = head + 4 + size
    return found


def error(text):
    return '{"error":["%s"]}' % text


def uri(path):
    return '{"uri":"%s"}' % path


def node(name, normal="{}", run_list="[]"):
    return (
        '{"automatic":{},"chef_environment":"_default","chef_type":"node","default":{},"json_class":"Chef::Node",'
        '"name":"%s","normal":%s,"override":{},"run_list":%s}' % (name, normal, run_list)
    )


def listed(path, names):
    """The listing of these names below a path, in the order of their bytes."""
    return "{%s}" % ",".join('"%s":"%s%s"' % (name, path, name) for name in sorted(names))


def ran(program, sent, words=("answer",), timeout=120, **options):
    return subprocess.run([program, *words], input=sent, capture_output=True, timeout=timeout, **options)


def fail(text):
    sys.exit("%s: %s" % (sys.argv[0].rsplit("/", 1)[-1], text))


def compare(program, rows, **options):
    """Sends the requests of the rows in one stream, and tells the first whose reply isn't the one that is due."""
    try:
        told = ran(program, b"".join(sent for sent, _ in rows), **options)
    except subprocess.TimeoutExpired as late:
        fail("the run isn't at its end within %d seconds" % late.timeout)
    if told.returncode == -signal.SIGXCPU:
        fail("the run takes more processor time than it may")
    start = 0
    for sent, due in rows:
        if not told.stdout.startswith(due, start):
            given = told.stdout[start : start + 200]
            fail("%r is answered %r, and %r is due" % (sent[:100], given, due[:200]))
        start += len(due)
    if start != len(told.stdout) or told.returncode or told.stderr:
        fail("behind the last reply: %r, status %d, notes %r" % (told.stdout[start:][:80], told.returncode, told.stderr[:80]))
