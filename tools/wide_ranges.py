"""Netlists with ranges and selects whose bounds are small, just at a limit, or far past it, for `tools/check_oracle --command ranges`.

The generator of the independent calculator makes narrow ranges alone. Here a bound goes up to a number of 22 digits, a width is often just
at the limit of 65,536 bits, and selects stand before and behind the declaration of their name. The calculator says what must come.
"""
import os
import random
import sys

LIBRARY = """\
library (l) {
  time_unit : "1ps"; capacitive_load_unit (1, ff);
  cell (INV) {
    pin (A) { direction : input; capacitance : 1; }
    pin (Y) { direction : output; }
  }
}
"""
# The last bound that is good, the widest range that is good, and numbers around what a machine's numbers hold.
BOUND, WIDTH = 1_048_575, 65_536
NEAR = (0, 1, 2, WIDTH - 1, WIDTH, WIDTH + 1, BOUND - WIDTH, BOUND - WIDTH + 1, BOUND - 1, BOUND, BOUND + 1, BOUND + 2, 2 * BOUND,
        BOUND + WIDTH, BOUND + WIDTH + 1, 3_000_000, 2**31, 2**32 - 1, 2**32, 2**32 + WIDTH, 2**63, 2**64 - 1, 2**64, 10**21)
APART = (0, 1, 3, WIDTH - 2, WIDTH - 1, WIDTH, WIDTH + 1, 2**20, 2**32)


def number(rng, value):
    return "0" * rng.choice((0, 0, 0, 1, 4, 30)) + str(value)


def bounds(rng):
    """Two numbers as they are written: near to each other, often so far apart that the width is just at its limit, or far apart."""
    low = rng.choice(NEAR)
    high = low + rng.choice(APART) if rng.random() < 0.8 else rng.choice(NEAR)
    both = [number(rng, low), number(rng, high)]
    rng.shuffle(both)
    return ":".join(both)


def small(rng):
    return f"{rng.randint(0, 5)}:{rng.randint(0, 5)}"


def declaration(rng, word, name):
    span = f" [{bounds(rng) if rng.random() < 0.4 else small(rng)}]" if rng.random() < 0.9 else ""
    return f"{word}{span} {name};"


def part(rng, names):
    """A part of a connection: a name, a bit or some bits of it."""
    name, kind = rng.choice(names), rng.random()
    if kind < 0.25:
        return name
    if kind < 0.4:
        return f"{name}[{number(rng, rng.choice(NEAR))}]"
    return f"{name}[{bounds(rng) if kind < 0.8 else small(rng)}]"


def expression(rng, names):
    parts = [part(rng, names) for _ in range(rng.choice((1, 1, 1, 2, 3)))]
    return parts[0] if len(parts) == 1 and rng.random() < 0.8 else "{" + ", ".join(parts) + "}"


def netlist(rng):
    """One module, with a port `a` or without, and up to two wires."""
    port = rng.random() < 0.6
    names = ["a"] * port + ["w", "v"][: rng.randint(1, 2)]
    words = {"a": rng.choice(("input", "output"))}
    items = [declaration(rng, words.get(name, "wire"), name) for name in names if name in words or rng.random() < 0.9]
    for instance in range(rng.randint(1, 3)):
        pins = [f".{pin}({expression(rng, names)})" for pin in ("A", "Y") if rng.random() < 0.7]
        items.append(f"INV u{instance} ({', '.join(pins)});")
    if rng.random() < 0.4:
        rng.shuffle(items)
    return "\n".join([f"module top ({'a' if port else ''});", *items, "endmodule", ""])


def put(folder, name, data):
    with open(os.path.join(folder, name), "wb") as file:
        file.write(data)


def write_cases(oracle, seed, wanted, room):
    """Writes so many cases, each a folder as the calculator's own, and gives their names."""
    if oracle not in sys.path:
        sys.path.insert(0, oracle)
    from gdcref import run as calculator

    rng, cases = random.Random(seed), []
    words = [b"flat", b"--netlist", b"n", b"--top", b"top", b"--lib", b"l"]
    for place in range(wanted):
        case = os.path.join(room, f"ranges-{seed}-{place:05}")
        os.makedirs(case)
        files = {b"n": netlist(rng).encode(), b"l": LIBRARY.encode()}
        status, out, err, free = calculator.run_set(words, dict(files), "7")
        for name, data in (*files.items(), (b"cmd.txt", b"".join(word + b"\n" for word in words)), (b"expect.status", b"%d\n" % status),
                           (b"expect.out", out), (b"expect.err", err), (b"stage", b"7\n")):
            put(case, name.decode(), data)
        if free:
            put(case, "free", free.encode())
        cases.append(case)
    return cases
