"""A served hub and its clients, for the tests and the load."""
import os
import random
import signal
import socket
import struct
import subprocess
import threading
import time
from pathlib import Path

PATIENCE = 60  # seconds after which something that should come does not


class Failed(Exception):
    """What should be so is not."""


def expect(fact, why):
    if not fact:
        raise Failed(why)


def eventually(question, why):
    """Waits until a question is answered with yes."""
    end = time.monotonic() + PATIENCE
    while not question():
        expect(time.monotonic() < end, why)
        time.sleep(0.001)


class Server:
    """The socket with a program behind it, on a free port."""

    def __init__(self, words, record=None):
        options = ["--record", str(record)] if record else []
        self.words = words
        self.process = subprocess.Popen(
            [words[0], "127.0.0.1:0", *options, "--program", *words[1:]],
            stdin=subprocess.PIPE, stdout=subprocess.PIPE, stderr=subprocess.PIPE, start_new_session=True,
        )
        self.shown, self.complaints = [], []
        start = self.process.stdout.readline().decode()
        expect(" at 127.0.0.1:" in start, f"no start line but {start!r}")
        self.address = "127.0.0.1", int(start.split(" at 127.0.0.1:")[1].split(";")[0])
        for source, lines in ((self.process.stdout, self.shown), (self.process.stderr, self.complaints)):
            threading.Thread(target=self._gather, args=(source, lines), daemon=True).start()

    @staticmethod
    def _gather(source, lines):
        for line in source:
            lines.append(line.decode().rstrip("\n"))

    def type(self, line):
        """Gives a line on standard input."""
        self.process.stdin.write(line.encode() + b"\n")
        self.process.stdin.flush()

    def program(self):
        """The process of the program behind it."""
        return int(Path(f"/proc/{self.process.pid}/task/{self.process.pid}/children").read_text().split()[0])

    def interrupt(self):
        """Ctrl-C: a signal to its whole process group."""
        os.killpg(self.process.pid, signal.SIGINT)
        return self.status()

    def end(self):
        """Ends it by SIGTERM; its status."""
        self.process.send_signal(signal.SIGTERM)
        return self.status()

    def status(self):
        try:
            return self.process.wait(PATIENCE)
        except subprocess.TimeoutExpired:
            self.process.kill()
            raise Failed("a signal did not end it") from None


class Client:
    """A connection. It says a name of its own first, by which a recording shows which one it is."""

    count = 0

    def __init__(self, server, reads=True, receive_buffer=None):
        Client.count += 1
        self.name = b"client %d\r" % Client.count
        self.socket = socket.socket()
        if receive_buffer:
            self.socket.setsockopt(socket.SOL_SOCKET, socket.SO_RCVBUF, receive_buffer)
        self.socket.connect(server.address)
        self.socket.setsockopt(socket.IPPROTO_TCP, socket.TCP_NODELAY, 1)
        self.sent, self.got, self.seen = bytearray(), bytearray(), 0
        self.news = threading.Condition()
        self.reader = threading.Thread(target=self._read, daemon=True)
        self.ended = False
        if reads:
            self.reader.start()
        self.send(self.name)
        if reads:
            self.expect(b"ERR_0:0,001\r")

    def _read(self):
        while True:
            try:
                data = self.socket.recv(65536)
            except OSError:
                data = b""
            with self.news:
                self.got += data
                self.ended = not data
                self.news.notify_all()
            if not data:
                return

    def send(self, data):
        self.sent += data
        self.socket.sendall(data)

    def send_in_parts(self, data, chance, most=200):
        """Sends what may be many requests, cut at random."""
        at = 0
        while at < len(data):
            end = at + chance.randint(1, most)
            self.send(data[at:end])
            at = end

    def expect(self, text):
        """Waits until what came, and was not yet asked for, is this."""
        end = self.seen + len(text)
        with self.news:
            self.news.wait_for(lambda: self.ended or len(self.got) >= end, PATIENCE)
            got = bytes(self.got[self.seen:end])
        expect(got == text, f"{self.name!r}: {text!r} was expected, {got!r} came")
        self.seen = end

    def ask(self, request, reply):
        self.send(request.encode() + b"\r")
        self.expect(reply.encode() + b"\r")

    def answer(self, request):
        """The line that comes for a request."""
        self.send(request.encode() + b"\r")
        with self.news:
            self.news.wait_for(lambda: self.ended or b"\r" in self.got[self.seen:], PATIENCE)
            line, end, _ = bytes(self.got[self.seen:]).partition(b"\r")
        expect(end, f"{self.name!r}: no answer to {request}")
        self.seen += len(line + end)
        return line.decode()

    def unasked(self):
        """What came and was not asked for."""
        return bytes(self.got[self.seen:])

    def wait_for_end(self):
        with self.news:
            self.news.wait_for(lambda: self.ended, PATIENCE)
        expect(self.ended, f"{self.name!r} was not closed")

    def finish(self):
        """Says that no more comes, and reads all that is still sent."""
        self.socket.shutdown(socket.SHUT_WR)
        self.wait_for_end()
        self.socket.close()

    def kill(self):
        """Resets the connection, without a farewell."""
        self.socket.setsockopt(socket.SOL_SOCKET, socket.SO_LINGER, struct.pack("ii", 1, 0))
        # shut down first: a thread that still reads would keep the socket open
        self.socket.shutdown(socket.SHUT_RD)
        if self.reader.ident:
            self.reader.join(PATIENCE)
        self.socket.close()


CODES = ["24,24", "24,48,24,960", "34,48,24,960", "4,4AAA", "24,24B", "4,5,8", "24,48,24,48,24,960"]


def request(chance):
    """A request at random, most of them good."""
    port, state = chance.randint(1, 3), chance.randint(0, 1)
    mode = chance.choice(["IR", "SENSOR", "SENSOR", "IR_BLASTER", "LED_LIGHTING", "ir"])
    code, number, times = chance.choice(CODES), chance.randint(0, 99), chance.randint(1, 3)
    target, ramp = chance.randint(1, 101), chance.randint(0, 10)
    return chance.choice([
        f"getstate,2:{port}", f"getstate,2:{port}", f"setstate,2:{port},{state}", f"get_IR,1:{port}", "getversion",
        "getdevices", f"set_IR,1:2,{mode}", "set_IR,1:2,SENSOR", "getstate,1:2", f"stopir,1:{port}", "getstate,9:1", "",
        f"sendir,1:{port},{number},40000,{times},1,{code}", f"sendir,1:{port},{number},40000,{times},1,{code}",
        f"sendir,1:1,{number % 2},500000,1,1,40,40", "noise \x07", "set_IR,1:2,LED_LIGHTING",
        f"set_LED_LIGHTING,1:2,{target},{ramp}", "get_LED_LIGHTING,1:2",
    ])


def requests(seed, count):
    chance = random.Random(seed)
    return "".join(request(chance) + "\r" for _ in range(count)).encode()
