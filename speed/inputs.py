"""The inputs on which the bench and the C hub are measured: what each is called, and its lines, always the same."""
import random

from script import lettered, plain, script

SHORT = ("getstate,2:{port}", "setstate,2:{port},{value}", "get_IR,1:{port}", "set_IR,1:{port},IR", "stopir,1:{port}", "getstate,1:{port}",
         "getversion")


def codes(chance, pairs, form):
    """A hundred sendir of so many pairs in a form, from three connections, each to its own connector; then all are waited for."""
    for i in range(100):
        code = [(343, 171), *((21, chance.choice((21, 64))) for _ in range(pairs - 2)), (21, 960)]
        yield f"{i % 3} sendir,1:{1 + i % 3},{i},38000,1,1,{form(code)}"
    yield "w 1000000000"


def short(chance):
    """Five hundred short requests."""
    for i in range(500):
        yield f"{i % 4} " + chance.choice(SHORT).format(port=1 + i % 3, value=i % 2)


def inputs():
    chance = random.Random(3)
    return {
        "mixed traffic": script(500, 7),
        "sendir of 34 plain pairs": as_bytes(codes(chance, 34, plain)),
        "sendir of 260 lettered pairs": as_bytes(codes(chance, 260, lettered)),
        "short requests": as_bytes(short(chance)),
    }


def as_bytes(lines):
    return "".join(line + "\n" for line in lines).encode()
