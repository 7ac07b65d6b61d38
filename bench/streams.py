"""What a stream of requests costs through `PROGRAM answer`: what the measurements of whole streams share."""
import json
import os
import resource
import subprocess
import tempfile
import threading

# as bin/chefsite has it
TUNED = {**os.environ, "GLIBC_TUNABLES": "glibc.malloc.tcache_count=8000"}


def message(method, target, body="", caller="pivotal"):
    head = "%s %s HTTP/1.1\r\nX-Ops-UserId: %s\r\nContent-Length: %d\r\n\r\n" % (method, target, caller, len(body))
    return (head + body).encode()


def machine(change=0):
    """The automatic attributes of a real machine, some 138 kB of them: 1,500 packages and 200 addresses. Each `change` has other versions."""
    packages = {
        "package-%04d" % n: {"version": "1:2.%d.%d~git20260101.%08x-%d+deb12u1" % (n % 50, n % 7, n + 10_000 * change, n % 3), "arch": "amd64"} for n in range(1500)
    }
    interfaces = {
        "eth%d" % n: {"addresses": {"10.0.%d.%d" % (n, m): {"family": "inet", "prefix": 24, "scope": "global"} for m in range(25)}} for n in range(8)
    }
    return json.dumps({"packages": packages, "network": {"interfaces": interfaces}}, separators=(",", ":"))


def cpu(program, sent):
    """The CPU seconds, user and system, of one run over these bytes."""
    before = resource.getrusage(resource.RUSAGE_CHILDREN)
    with tempfile.TemporaryFile() as given:
        given.write(sent)
        given.seek(0)
        subprocess.run([program, "answer"], stdin=given, stdout=subprocess.DEVNULL, check=True, env=TUNED)
    after = resource.getrusage(resource.RUSAGE_CHILDREN)
    return after.ru_utime - before.ru_utime + after.ru_stime - before.ru_stime


def least(program, sent, runs=5):
    return min(cpu(program, sent) for _ in range(runs))


def peak(program, sent):
    """The most memory of one run over these bytes, in bytes, as GNU time tells it: nothing larger ran in that process."""
    with tempfile.TemporaryFile() as given:
        given.write(sent)
        given.seek(0)
        words = ["/usr/bin/time", "-f", "%M", program, "answer"]
        told = subprocess.run(words, stdin=given, stdout=subprocess.DEVNULL, stderr=subprocess.PIPE, check=True, env=TUNED)
    return 1024 * int(told.stderr)


def last_reply(program, sent):
    """The status of the last reply, its body, and the bytes of it."""
    told = subprocess.run([program, "answer"], input=sent, capture_output=True, check=True, env=TUNED).stdout
    head, body = told[told.rindex(b"HTTP/1.1 ") :].split(b"\r\n\r\n", 1)
    return int(head.split()[1]), json.loads(body), len(body)


class Run:
    """A run that is sent some requests at a time, and read before the next are sent: what is between two readings of its
    processor time is theirs alone, however long the requests before them took."""

    def __init__(self, program, env=TUNED):
        self.process = subprocess.Popen([program, "answer"], stdin=subprocess.PIPE, stdout=subprocess.PIPE, env=env)

    def reply(self):
        """The status of the next reply, and its body."""
        status, size = int(self.process.stdout.readline().split()[1]), 0
        for line in iter(self.process.stdout.readline, b"\r\n"):
            if line.startswith(b"Content-Length: "):
                size = int(line.split()[1])
        return status, self.process.stdout.read(size)

    def ask(self, sent, count):
        """The CPU seconds that so many requests take, and the last reply."""

        def send():
            self.process.stdin.write(sent)
            self.process.stdin.flush()

        before, sending = self.cpu(), threading.Thread(target=send)
        sending.start()
        for _ in range(count):
            last = self.reply()
        sending.join()
        return self.cpu() - before, last

    def cpu(self):
        """The CPU seconds that the process has had so far."""
        with open("/proc/%d/schedstat" % self.process.pid) as told:
            return int(told.read().split()[0]) / 1e9

    def peak(self):
        """The most memory that it has had so far, in bytes."""
        with open("/proc/%d/status" % self.process.pid) as told:
            return next(1024 * int(line.split()[1]) for line in told if line.startswith("VmHWM:"))

    def end(self):
        self.process.stdin.close()
        assert self.process.wait() == 0
