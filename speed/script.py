#!/usr/bin/env python3
"""Prints a repeatable bench script, as a lab would send it.

usage: script.py LINES [SEED]      (seed 1 if none is given)

About 40% sendir (plain and lettered, some sent again for renewals, some
faulty), 15% getstate, 10% setstate, 10% set_IR/get_IR, 5% stopir,
2% getdevices/getversion, 3% garbage, 10% waits, 5% readings and closings.
"""
import random
import sys


def lettered(pairs):
    """001's compressed form: a pair that has a letter is always its letter."""
    letters, text, spelled = {}, [], False
    for p in pairs:
        if p in letters:
            text.append(letters[p])
            spelled = False
            continue
        if len(letters) < 15:
            letters[p] = "ABCDEFGHIJKLMNO"[len(letters)]
        text.append(("," if spelled else "") + "%d,%d" % p)
        spelled = True
    return "".join(text)


def plain(pairs):
    return ",".join("%d,%d" % p for p in pairs)


class Lab:
    FREQS = (36000, 37878, 38000, 38000, 38000, 40000, 40000, 56000, 455000, 15000, 500000)

    def __init__(self, seed):
        self.r = random.Random(seed)
        self.last = {}                    # port: (connection, fields, pairs)

    def below(self, n):
        return int(self.r.random() * n)

    def of(self, seq):
        return seq[self.below(len(seq))]

    def conn(self):
        """Mostly 0 to 3, now and then any of the eight."""
        return self.below(4) if self.r.random() < 0.9 else self.below(8)

    def home(self, port):
        """A connector is mostly used by one connection, so that lines meet."""
        return port if self.r.random() < 0.85 else self.conn()

    def port(self):
        return 1 + self.below(3)

    def pairs(self, freq):
        least = max(4, -(-freq // 12500))
        n = 2 + self.below(39)
        head = (least + 300 + self.below(60), least + 150 + self.below(30))
        kinds = [(least + self.below(30), least + self.below(90)) for _ in range(2 + self.below(3))]
        if self.r.random() < 0.15:        # a code of many distinct pairs
            kinds += [(least + i, least + 20 + self.below(40)) for i in range(18)]
        end = (kinds[0][0], least + 400 + self.below(1500))
        return [head] + [self.of(kinds) for _ in range(n - 2)] + [end]

    def sendir_text(self, port, fields, pairs):
        code = lettered(pairs) if self.r.random() < 0.5 else plain(pairs)
        return "sendir,1:%d,%d,%d,%d,%d,%s" % ((port,) + fields + (code,))

    def faulty(self, text):
        """One fault in a good sendir line."""
        head = text.split(",", 6)
        k = self.below(14)
        if k == 0:
            head[1] = self.of(("2:1", "0:1", "1:4", "1:0", "1", "1:", ":1", "1:1x", "5:3", ""))
        elif k == 1:
            head[2] = self.of(("65536", "", "x", "0000001", "-1"))
        elif k == 2:
            head[3] = self.of(("14999", "500001", "", "38k", "0038000"))
        elif k == 3:
            head[4] = self.of(("0", "1000000", "", "1x"))
        elif k == 4:
            head[5] = self.of(("0", "2", "385", "", "383", "81", "1 "))
        elif k == 5:
            head[6] = self.of(("", "B", "4A", "3", "4,", "A1,2", "200"))
        elif k == 6:
            head = head[:1 + self.below(6)]
        elif k == 7:
            head[6] += self.of((",", ",A", "P", "Z", "a", ",24", " ", ",,", "x"))
        elif k == 8:
            cut = self.below(len(head[6])) if head[6] else 0
            head[6] = head[6][:cut]
        elif k == 9:
            code = head[6]
            cut = self.below(len(code)) if code else 0
            head[6] = code[:cut] + self.of("ABCOPZ,,09 x\t~") + code[cut + 1:]
        elif k == 10:
            code = head[6]
            cut = self.below(len(code) + 1)
            head[6] = code[:cut] + self.of("ABCOPZ,,09") + code[cut:]
        elif k == 11:
            head[6] = "100,200" + "A" * (self.of((258, 259, 260, 261, 300)))
        elif k == 12:
            head[6] = ",".join(["100,200"] * self.of((259, 260, 261, 262)))
        else:
            head[6] = head[6] + self.of((",50001,60", ",3,60", ",60,3", ",60,50001", ",0000100,60"))
        return ",".join(head)

    def sendir(self):
        port, x = self.of((1, 1, 1, 1, 2, 3, 3, 3, 3)), self.r.random()
        if x < 0.35 and port in self.last:           # held key: the same line again
            c, fields, pairs = self.last[port]
            if self.r.random() < 0.08:
                c = self.conn()
            if self.r.random() < 0.10:               # alike but for one field
                f = list(fields)
                k = self.below(4)
                f[k] = (self.below(65536), self.of((38000, 40000)), 1 + self.below(22), 1)[k]
                fields = tuple(f)
            return "%d %s" % (c, self.sendir_text(port, fields, pairs))
        c = self.home(port)
        freq = self.of(self.FREQS)
        pairs = self.pairs(freq)
        repeat = 1 if self.r.random() < 0.5 else self.of((2, 2, 3, 3, 4, 5, 20, 21, 30, 999999))
        offset = 1 if self.r.random() < 0.6 else 1 + 2 * self.below(len(pairs))
        fields = (1 + self.below(999) if self.r.random() < 0.9 else self.below(65536), freq, repeat, offset)
        text = self.sendir_text(port, fields, pairs)
        if x > 0.85:
            return "%d %s" % (c, self.faulty(text))
        self.last[port] = (c, fields, pairs)
        return "%d %s" % (c, text)

    def spoil(self, text, share):
        """Now and then a fault at the end of, or within, a short request."""
        if self.r.random() >= share:
            return text
        k = self.below(4)
        if k == 0:
            return text + self.of((",", ",0", "x", " ", ",1,1"))
        cut = self.below(len(text) + 1)
        if k == 1:
            return text[:cut]
        return text[:cut] + self.of("0123456789:,,x_I ") + text[cut + (k == 2):]

    def getstate(self):
        if self.r.random() < 0.6:
            a = "2:%d" % self.port()
        else:
            a = "1:%d" % (2 if self.r.random() < 0.7 else self.port())
        return "%d %s" % (self.conn(), self.spoil("getstate," + a, 0.08))

    def setstate(self):
        return "%d %s" % (self.conn(), self.spoil("setstate,2:%d,%d" % (self.port(), self.below(2)), 0.1))

    def mode(self):
        port = self.port()
        if self.r.random() < 0.5:
            text = "get_IR,1:%d" % port
        else:
            # connector 2 is mostly the one with a contact on it
            names = {1: ("IR", "IR", "IR", "IR", "SENSOR", "IR_BLASTER"),
                     2: ("IR", "SENSOR", "SENSOR", "SENSOR", "SENSOR", "IR_BLASTER"),
                     3: ("IR", "IR", "IR", "IR_BLASTER", "IR_BLASTER", "SENSOR")}[port]
            text = "set_IR,1:%d,%s" % (port, self.of(names))
        return "%d %s" % (self.conn(), self.spoil(text, 0.1))

    def stopir(self):
        port = self.port()
        return "%d %s" % (self.home(port), self.spoil("stopir,1:%d" % port, 0.08))

    def about(self):
        return "%d %s" % (self.conn(), self.spoil(self.of(("getdevices", "getversion")), 0.1))

    def garbage(self):
        k = self.below(12)
        if k == 0:
            return ""
        if k == 1:
            return self.of(("w", "w ", "w 1 ", "w -1", "w 00000000001", "w 1000000001", "w 9999999999", "x", "x 8",
                            "x 12345678901", "r 1", "r 4 0", "r 2 2", "r 2 0 ", "0", "8 getversion", "q 1 2",
                            " 0 getversion", "00000000000 getversion", "0000000001 getversion"))
        if k == 2:
            return "%d " % self.conn()
        if k == 3:
            return "%d %s" % (self.conn(), "x" * self.of((4095, 4096, 4097, 4098, 5000)) if self.below(8) == 0 else "x")
        if k == 4:
            return "%d getversion\r" % self.conn()
        if k == 5:
            return "%d %s" % (self.conn(), self.of(("GETDEVICES", "get_NET,0:1", "getversion,1", "learn", "get_IRL",
                                                    "set_LED_LIGHTING,1:3,50,10", "sendIR,1:1", "unknowncommand")))
        text = "".join(chr(32 + self.below(95)) for _ in range(self.below(40)))
        if k < 9:
            return "%d %s" % (self.conn(), text)
        if k == 9:
            return "%d %s" % (self.conn(), "".join(self.of("\x00\t\x1b\x7f\x80\xff" + "az09,:") for _ in range(1 + self.below(20))))
        return text

    def wait(self):
        k = self.below(10)
        if k == 0:
            return "w 0"
        if k < 4:
            return "w %d" % self.below(2000)
        return "w %d" % self.below(200001)

    def other(self):
        if self.r.random() < 0.75:
            return "r %d %d" % (2 if self.r.random() < 0.85 else self.port(), self.below(2))
        return "x %d" % self.conn()

    def line(self):
        x = self.below(100)
        if x < 40:
            return self.sendir()
        if x < 55:
            return self.getstate()
        if x < 65:
            return self.setstate()
        if x < 75:
            return self.mode()
        if x < 80:
            return self.stopir()
        if x < 82:
            return self.about()
        if x < 85:
            return self.garbage()
        if x < 95:
            return self.wait()
        return self.other()


def script(lines, seed):
    """So many lines of mixed traffic."""
    lab = Lab(seed)
    return b"".join(lab.line().encode("latin-1") + b"\n" for _ in range(lines))


def main():
    if len(sys.argv) not in (2, 3):
        sys.exit("usage: script.py LINES [SEED]")
    sys.stdout.buffer.write(script(int(sys.argv[1]), int(sys.argv[2]) if len(sys.argv) == 3 else 1))


if __name__ == "__main__":
    main()
