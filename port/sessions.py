"""sessions RECORD SOCKET WORDS..: sessions of many clients over the socket, with the program that WORDS run behind it;
the frames are recorded. Everything that a client receives must be what the recorded answers say to it."""
import random
import shutil
import subprocess
import sys
import threading
import time
from pathlib import Path

sys.dont_write_bytecode = True
from clients import PATIENCE, Client, Failed, Server, eventually, expect, requests  # noqa: E402
from recording import Recording  # noqa: E402

REQUESTS = 2000
LONG = "sendir,1:3,9,40000,20,1,50000,50000"  # 50 seconds


class Sessions:
    def __init__(self, server):
        self.server = server
        self.whole, self.cut = [], []  # clients that read everything, and those that did not

    def client(self):
        client = self.served()
        self.whole.append(client)
        return client

    def served(self):
        """A client that is not closed at once: those before it may not all have left yet."""
        end = time.monotonic() + PATIENCE
        while True:
            try:
                return Client(self.server)
            except Failed:
                expect(time.monotonic() < end, "a client is not served")
                time.sleep(0.01)

    def finish(self, *clients):
        for client in clients:
            client.finish()

    def readme(self):
        """The session of the README."""
        one, two = self.client(), self.client()
        one.ask("set_IR,1:2,SENSOR", "IR,1:2,SENSOR")
        one.ask("getstate,1:2", "ERR_1:2,028")
        self.server.type("r 2 0")
        # a reading comes another way than the lines: it is there before long
        while (state := one.answer("getstate,1:2")) != "state,1:2,0":
            expect(state == "ERR_1:2,028", f"{state!r} for a contact that reads 0")
        start = time.monotonic()
        two.send(b"sendir,1:1,7,40000,2,3,34,48,24,960\r")
        two.expect(b"completeir,1:1,7\r")
        took = time.monotonic() - start
        expect(0.051250 <= took < 5, f"a transmission of 51,250 us took {took} s")
        self.finish(one, two)

    def readings(self):
        """What is no reading gets a line that says so, and so does a reading that is refused."""
        self.server.type("r 2")
        self.server.type("r 1 0")
        said = ["port: not a reading: r 2 (a reading is `r 2 0`)", "port: a reading of 1:1 was refused with 104"]
        eventually(lambda: set(said) <= set(self.server.complaints), "no complaint about readings")

    def stopping(self):
        """A stopir from another connection reaches the owner too, and halts: there is no completion."""
        owner, other = self.client(), self.client()
        owner.send(LONG.encode() + b"\r")
        owner.ask("getversion", "LH-01")
        other.ask("sendir,1:3,5,40000,1,1,24,24", "busyIR,1:3,5")
        other.ask("stopir,1:3", "stopir,1:3")
        owner.expect(b"stopir,1:3\r")
        owner.send(b"sendir,1:3,5,40000,1,1,24,24\r")
        owner.expect(b"completeir,1:3,5\r")
        self.finish(owner, other)
        expect(not owner.unasked() and not other.unasked(), "more was said than there was to say")

    def completing(self):
        """Transmissions on three connectors at once, each complete in its time and told to its own client."""
        lengths = {1: 12, 2: 4, 3: 8}  # so many times 2 x 50,000 periods of 2 us
        clients = {port: self.client() for port in lengths}
        clients[2].ask("set_IR,1:2,IR", "IR,1:2,IR")

        def transmit(port):
            start = time.monotonic()
            clients[port].send(f"sendir,1:{port},{port},500000,{lengths[port]},1,50000,50000\r".encode())
            clients[port].expect(f"completeir,1:{port},{port}\r".encode())
            took.append((port, time.monotonic() - start))
            for _ in range(20):
                clients[port].send(f"sendir,1:{port},{port},500000,1,1,1000,1500\r".encode())
                clients[port].expect(f"completeir,1:{port},{port}\r".encode())

        took = []
        in_threads([lambda port=port: transmit(port) for port in lengths])
        expect([port for port, _ in took] == [2, 3, 1], f"completed in another order: {took}")
        for port, seconds in took:
            right = lengths[port] * 0.2
            expect(right <= seconds < right + 5, f"{right} s took {seconds} s")
        self.finish(*clients.values())
        expect(not any(client.unasked() for client in clients.values()), "a completion came to somebody else too")

    def lighting(self):
        """A lamp moves with the time that passes, whoever leaves meanwhile, and with ramp 0 at once."""
        first, other = self.client(), self.client()
        first.ask("set_IR,1:1,LED_LIGHTING", "IR,1:1,LED_LIGHTING")
        first.ask("get_LED_LIGHTING,1:1", "LED_LIGHTING,1:1,0,0")
        begun = time.monotonic()
        first.ask("set_LED_LIGHTING,1:1,100,1", "LED_LIGHTING,1:1,0,100")
        turned = time.monotonic()
        first.finish()
        time.sleep(0.5)
        asked = time.monotonic()
        shown = other.answer("get_LED_LIGHTING,1:1")
        # the hub counts whole microseconds
        least, most = level_after(asked - turned - 1e-6), level_after(time.monotonic() - begun + 1e-6)
        right = [f"LED_LIGHTING,1:1,{level},100" for level in range(least, most + 1)]
        expect(shown in right, f"{shown!r} and no level of {least} to {most}")
        other.ask("set_LED_LIGHTING,1:1,100,0", "LED_LIGHTING,1:1,100,100")
        other.ask("set_LED_LIGHTING,1:1,1,10", "LED_LIGHTING,1:1,100,1")
        eventually(lambda: other.answer("get_LED_LIGHTING,1:1") == "LED_LIGHTING,1:1,1,1", "a lamp does not arrive")
        other.ask("sendir,1:1,5,40000,1,1,24,24", "ERR_1:1,013")
        other.ask("set_IR,1:1,IR", "IR,1:1,IR")
        other.ask("get_LED_LIGHTING,1:1", "ERR_1:1,023")
        self.finish(other)

    def inheriting(self):
        """The next client gets the number of one that left, and owns nothing of what it left running."""
        first = self.client()
        first.send(LONG.encode() + b"\r")
        first.ask("getversion", "LH-01")
        first.finish()
        heir = self.client()
        heir.ask(LONG, "busyIR,1:3,9")
        heir.ask("set_IR,1:3,IR", "ERR_1:3,029")
        heir.ask("stopir,1:3", "stopir,1:3")
        heir.finish()
        expect(not heir.unasked(), "the heir was told something that was not for it")
        self.heirs = [(first, heir)]

    def ninth(self):
        """Eight are served, a ninth is closed at once, and the next after one has left is served."""
        eight = [self.client() for _ in range(8)]
        ninth = Client(self.server, reads=False)
        ninth.reader.start()
        ninth.wait_for_end()
        expect(not ninth.got, "a ninth client was told something")
        for client in eight:
            client.ask("getversion", "LH-01")
        eight[3].finish()
        following = self.client()
        self.finish(following, *(eight[:3] + eight[4:]))
        self.heirs.append((eight[3], following))

    def endless(self):
        """1 MB without CR is one 015, at its CR."""
        client, other = self.client(), self.client()
        for _ in range(16):
            client.send(b"getversion," * 5957)
            other.ask("getversion", "LH-01")
        expect(len(client.sent) > 1000000 and not client.unasked(), "an answer before the CR")
        client.ask("", "ERR_0:0,015")
        client.ask("getversion", "LH-01")
        self.finish(client, other)

    def silent(self):
        """A client that does not read loses its connection; the others are served meanwhile."""
        silent = Client(self.server, reads=False, receive_buffer=4096)
        self.cut.append(silent)
        other = self.client()
        silent.socket.settimeout(PATIENCE)

        def flood():
            try:
                while True:
                    silent.send(b"getdevices\r" * 100)
            except OSError:
                pass

        flooding = threading.Thread(target=flood, daemon=True)
        flooding.start()
        while flooding.is_alive():
            start = time.monotonic()
            other.ask("getstate,2:3", "state,2:3,0")
            expect(time.monotonic() - start < 5, "a client that does not read holds up another")
        silent.socket.close()
        self.finish(other)

    def killed(self):
        """Clients that die within a line or a transmission: what they began is nobody's."""
        for number in range(20):
            victim = self.served()
            self.cut.append(victim)
            victim.send(LONG.encode() + b"\r")
            victim.ask("getversion", "busyIR,1:3,9\rLH-01" if number else "LH-01")
            victim.send(b"getver")
            victim.kill()
        other = self.client()
        other.ask("sendir,1:3,1,40000,1,1,24,24", "busyIR,1:3,1")
        other.ask("stopir,1:3", "stopir,1:3")
        self.finish(other)

    def crowd(self):
        """Eight clients at once, with many requests each, cut at random; readings among them."""
        eight = [self.client() for _ in range(8)]
        at_work = threading.Event()

        def read():
            chance = random.Random(99)
            while not at_work.wait(0.01):
                self.server.type(f"r 2 {chance.randint(0, 1)}")

        def work(number, client):
            client.send_in_parts(requests(number, REQUESTS), random.Random(number))
            client.finish()

        reading = threading.Thread(target=read, daemon=True)
        reading.start()
        start = time.monotonic()
        in_threads([lambda one=one: work(*one) for one in enumerate(eight)])
        at_work.set()
        reading.join()
        self.rate = 8 * REQUESTS / (time.monotonic() - start)

    def shell(self):
        """The same with a shell alone."""
        host, port = self.server.address
        script = f"""
            exec 3<>/dev/tcp/{host}/{port} && printf 'getversion\\r' >&3
            read -r -d $'\\r' -t 30 line <&3 && echo "$line"
        """
        said = subprocess.run(["bash", "-c", script], stdout=subprocess.PIPE, check=False).stdout
        expect(said == b"LH-01\n", f"a shell was told {said!r}")

    def netcat(self):
        """The same with nc, where it is installed."""
        if not shutil.which("nc"):
            print("sessions: nc is not installed: left out")
            return
        host, port = self.server.address
        command, lines = ["nc", "-w", "3", host, str(port)], b"getversion\rgetstate,2:3\r"
        said = subprocess.run(command, input=lines, stdout=subprocess.PIPE, timeout=PATIENCE, check=False).stdout
        expect(said == b"LH-01\rstate,2:3,0\r", f"nc was told {said!r}")

    def showing(self):
        """What the technician sees: changes alone."""
        client = self.client()
        client.ask("setstate,2:3,1", "state,2:3,1")
        client.ask("setstate,2:3,1", "state,2:3,1")
        client.ask("setstate,2:3,0", "state,2:3,0")
        client.ask("set_IR,1:3,IR_BLASTER", "IR,1:3,IR_BLASTER")
        client.send(LONG.encode() + b"\r" + LONG.encode() + b"\r")
        client.ask("stopir,1:3", "stopir,1:3")
        client.send(b"sendir,1:3,4,40000,1,1,24,24\r")
        client.expect(b"completeir,1:3,4\r")
        client.ask("set_IR,1:3,LED_LIGHTING", "IR,1:3,LED_LIGHTING")
        client.ask("set_LED_LIGHTING,1:3,50,0", "LED_LIGHTING,1:3,50,50")
        client.ask("get_LED_LIGHTING,1:3", "LED_LIGHTING,1:3,50,50")
        client.ask("set_IR,1:3,IR", "IR,1:3,IR")
        client.finish()
        eventually(lambda: " mode 1:3 IR by " in self.server.shown[-1], "the last change is not shown")
        by = self.server.shown[-1][-1]
        right = [
            f"relay 2:3 closed by {by}", f"relay 2:3 open by {by}", f"mode 1:3 IR_BLASTER by {by}",
            f"1:3 transmits 9 for {by}", "1:3 renewed", f"1:3 halted by {by}", f"1:3 transmits 4 for {by}",
            "1:3 complete", f"mode 1:3 LED_LIGHTING by {by}", f"lamp 1:3 to 50 by {by}", f"mode 1:3 IR by {by}",
        ]
        seen = self.server.shown[-len(right):]
        expect([line.split(" ", 1)[1] for line in seen] == right, f"the technician sees {seen}")

    def taken(self):
        """A port that is taken is an error, with status 1 and a line that says so."""
        socket, *program = self.server.words
        command = [socket, "%s:%d" % self.server.address, "--program", *program]
        second = subprocess.run(command, stdin=subprocess.DEVNULL, capture_output=True, timeout=PATIENCE, check=False)
        expect(second.returncode == 1, f"its status is {second.returncode}")
        expect(b"Address already in use" in second.stderr and not second.stdout, f"it says {second.stderr!r}")

    def interrupted(self):
        """Ctrl-C ends it with status 0, its clients closed and the program ended; the end of its input did not."""
        server = Server(self.server.words)
        server.process.stdin.close()
        program = server.program()
        client = Client(server)
        client.send(LONG.encode() + b"\rgetver")
        expect(server.interrupt() == 0, f"its status is {server.process.returncode}: {server.complaints}")
        client.wait_for_end()
        expect(not Path(f"/proc/{program}").exists(), "the program is still there")

    def all(self):
        for session in (self.readme, self.readings, self.stopping, self.completing, self.lighting, self.inheriting,
                        self.ninth, self.endless, self.silent, self.killed, self.shell, self.netcat, self.showing,
                        self.taken, self.interrupted, self.crowd):
            try:
                session()
            except Failed as why:
                raise Failed(f"{session.__doc__} {why}") from why
            expect(self.server.process.poll() is None, f"{session.__doc__} It ended.")


def level_after(seconds):
    """What a lamp with ramp 1 and target 100 shows so long after it was at 0."""
    return min(100, int(seconds * 10))


def in_threads(works):
    """Does all at once; what fails, fails."""
    failures = []

    def work(one):
        try:
            one()
        except (Failed, OSError) as why:
            failures.append(why)

    threads = [threading.Thread(target=work, args=(one,)) for one in works]
    for thread in threads:
        thread.start()
    for thread in threads:
        thread.join()
    expect(not failures, f"{failures}")


def check(sessions, record):
    recording = Recording(record)
    for client in sessions.whole:
        recording.check(client)
    for client in sessions.cut:
        recording.check(client, whole=False)
    for first, heir in sessions.heirs:
        numbers = recording.of(first).connection, recording.of(heir).connection
        expect(numbers[0] == numbers[1], f"the numbers of a client and the next are {numbers}")
    late = sorted(recording.lateness)
    expect(len(late) > 50, f"only {len(late)} completions were waited for")
    print(f"sessions: {len(sessions.whole)} clients, {recording.count} events; eight at once {sessions.rate:.0f} "
          f"requests/s; {len(late)} completions waited for, half of them at most {late[len(late) // 2]} us late, all "
          f"at most {late[-1]}")


def main():
    record = Path(sys.argv[1])
    server = Server(sys.argv[2:], record)
    sessions = Sessions(server)
    try:
        sessions.all()
        last = sessions.client()
        expect(server.end() == 0, f"its status at SIGTERM is {server.process.returncode}")
        last.wait_for_end()
        check(sessions, record)
    except Failed as why:
        server.process.kill()
        print(*server.complaints, sep="\n")
        sys.exit(f"sessions: {why}")


main()
