"""What a recording of the socket says: which connection each client had, what it sent and what it was sent."""
from clients import expect


def frames(data):
    """The frames of some bytes: kind, connection, bytes."""
    at = 0
    while at < len(data):
        expect(at + 4 <= len(data), "a recording ends within a frame")
        end = at + 4 + int.from_bytes(data[at + 2:at + 4], "big")
        expect(end <= len(data), "a recording ends within a frame")
        yield chr(data[at]), data[at + 1], data[at + 4:end]
        at = end


def turns(data):
    """The frames up to each `d`, which stands behind each event and behind its answers."""
    turn = []
    for frame in frames(data):
        turn.append(frame)
        if frame[0] == "d":
            yield turn
            turn = []
    expect(not turn, "frames behind the last question")


class Holder:
    """One holder of a connection's number."""

    def __init__(self, connection):
        self.connection = connection
        self.sent, self.given = b"", b""


class Recording:
    def __init__(self, path):
        events = list(turns(path.read_bytes()))
        answers = list(turns((path.parent / (path.name + ".out")).read_bytes()))
        expect(len(events) == len(answers), f"{len(events)} events and {len(answers)} answers")
        self.holders, self.lateness, self.count = [], [], len(events)
        self.now = {}
        for event, answer in zip(events, answers):
            self._turn(event, answer)

    def _holder(self, connection):
        if connection not in self.now:
            self.now[connection] = Holder(connection)
            self.holders.append(self.now[connection])
        return self.now[connection]

    def _turn(self, event, answer):
        for kind, connection, data in event:
            if kind == "b":
                self._holder(connection).sent += data
        for kind, connection, data in answer:
            if kind == "b":
                self._holder(connection).given += data
            elif kind == "f" and connection != 255:
                self._holder(connection).given += data[4:]
        self._note_lateness(event, answer)
        for kind, connection, _ in event:
            if kind == "x":
                self.now.pop(connection, None)

    def _note_lateness(self, event, answer):
        """By how many microseconds the waits went beyond the completions in them."""
        waited = sum(int.from_bytes(data, "big") for kind, _, data in event if kind == "w")
        alone = all(kind in "wcld" for kind, _, _ in event)
        self.lateness += [waited - int.from_bytes(data[:4], "big") for kind, _, data in answer if kind == "f" and alone]

    def of(self, client):
        found = [holder for holder in self.holders if holder.sent.startswith(client.name)]
        expect(len(found) == 1, f"{client.name!r} is {len(found)} times in the recording")
        return found[0]

    def check(self, client, whole=True):
        """What the client sent was given to the program, and what that said was sent to the client."""
        holder = self.of(client)
        sent, got = bytes(client.sent), bytes(client.got)
        if whole:
            expect(holder.sent == sent, f"{client.name!r}: other bytes were handed on than it sent")
            expect(holder.given == got, f"{client.name!r}: other bytes came than were said to it")
        expect(sent.startswith(holder.sent), f"{client.name!r}: bytes were handed on that it did not send")
        expect(holder.given.startswith(got), f"{client.name!r}: bytes came that were not said to it")
