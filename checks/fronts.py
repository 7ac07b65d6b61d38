"""A server on a port of this machine: what the check of `knife` asks, and one to try `bin/knife` with.

    python3 checks/fronts.py bin/chefsite 8080

listens on 127.0.0.1 at this port until it is ended. It hands what it is sent to one run of `answer`, which keeps it as long,
and serves one connection after another.
"""
import re
import socket
import struct
import subprocess
import sys
import threading

# What a front may do in the place of sending bytes: it ends the connection, or resets it.
END, RESET = object(), object()


def read_message(stream):
    """The next request or reply of a stream, as its bytes; none where it isn't there whole."""
    head = b""
    while not head.endswith(b"\r\n\r\n"):
        line = stream.readline()
        if not line:
            return b""
        head += line
    size = re.search(rb"(?i)\r\ncontent-length:[ \t]*([0-9]+)", head)
    size = int(size[1]) if size else 0
    body = stream.read(size)
    return head + body if len(body) == size else b""


class Site:
    """One run of `answer`, which is asked one request at a time."""

    def __init__(self, program):
        self.run = subprocess.Popen([program, "answer"], stdin=subprocess.PIPE, stdout=subprocess.PIPE)

    def ask(self, request):
        self.run.stdin.write(request)
        self.run.stdin.flush()
        return read_message(self.run.stdout)

    def end(self):
        """The status with which the run ends, where nothing more is asked."""
        self.run.stdin.close()
        return self.run.wait(timeout=60)


class Front:
    """Listens on a port of 127.0.0.1. `answer` says of each request what is done: a list of bytes to send, END and RESET."""

    def __init__(self, answer, port=0):
        self.answer, self.talks = answer, []
        self.listener = socket.create_server(("127.0.0.1", port))
        self.port = self.listener.getsockname()[1]

    def serve(self):
        """Serves one connection after another, without end."""
        while True:
            connection, _ = self.listener.accept()
            with connection, connection.makefile("rb") as requests:
                try:
                    self.talk(connection, requests)
                except ConnectionError:
                    pass

    def talk(self, connection, requests):
        connection.setsockopt(socket.IPPROTO_TCP, socket.TCP_NODELAY, 1)
        asked = []
        while request := read_message(requests):
            if not asked:
                self.talks.append(asked)
            asked.append(request)
            for step in self.answer(request):
                if step is END:
                    return
                if step is RESET:
                    connection.setsockopt(socket.SOL_SOCKET, socket.SO_LINGER, struct.pack("ii", 1, 0))
                    return
                connection.sendall(step)

    def begin(self):
        """Serves beside what else is done."""
        threading.Thread(target=self.serve, daemon=True).start()

    def taken(self):
        """The requests of each connection since the last call, but for those without any. Each is at its end: one that comes
        behind them all is served behind them."""
        with socket.create_connection(("127.0.0.1", self.port), timeout=60) as last:
            last.shutdown(socket.SHUT_WR)
            last.recv(1)
        taken, self.talks = self.talks, []
        return taken


def main(program, port):
    site = Site(program)
    front = Front(lambda request: [site.ask(request) or END], int(port))
    print("listens on 127.0.0.1:%d until it is ended; what it was sent is gone then" % front.port, flush=True)
    try:
        front.serve()
    except KeyboardInterrupt:
        site.end()


if __name__ == "__main__":
    if len(sys.argv) != 3:
        sys.exit("usage: python3 checks/fronts.py PROGRAM PORT")
    main(*sys.argv[1:])
