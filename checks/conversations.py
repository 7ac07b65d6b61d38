"""A run that is asked some requests at a time, with a bound on its processor time, and its memory."""
import resource
import subprocess
import threading

from messages import fail


def limited(longest):
    """What bounds the processor time of a process that begins, in seconds."""
    return lambda: resource.setrlimit(resource.RLIMIT_CPU, (longest, longest + 5))


class Conversation:
    """A run that is sent some requests at a time, and read before the next are sent. It has so many seconds of processor
    time, and ten times as many by the clock."""

    def __init__(self, program, longest):
        self.run = subprocess.Popen([program, "answer"], stdin=subprocess.PIPE, stdout=subprocess.PIPE, preexec_fn=limited(longest))
        self.watch = threading.Timer(10 * longest, self.run.kill)
        self.watch.start()

    def read_reply(self):
        """The bytes of the next reply, or of what is there in its place at the end."""
        head = []
        while not head or head[-1] not in (b"\r\n", b""):
            head.append(self.run.stdout.readline())
        size = [int(line.split()[1]) for line in head if line.startswith(b"Content-Length: ")]
        return b"".join(head) + (self.run.stdout.read(size[0]) if size else b"")

    def ask(self, rows):
        """Sends these requests, of so few bytes that a pipe holds their replies, and compares what is answered."""
        self.run.stdin.write(b"".join(sent for sent, _ in rows))
        self.run.stdin.flush()
        for sent, due in rows:
            given = self.read_reply()
            if given != due:
                fail("%s\nis answered\n%s\n\nand due is\n%s" % (sent.decode(), given.decode(), due.decode()))

    def most_memory(self):
        """The most memory that the process has had so far, in kB."""
        with open("/proc/%d/status" % self.run.pid) as status:
            return next(int(line.split()[1]) for line in status if line.startswith("VmHWM:"))

    def end(self):
        self.run.stdin.close()
        if self.run.wait() != 0:
            fail("the run ends with %d" % self.run.returncode)
        self.watch.cancel()
