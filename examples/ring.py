"""The sample ring: written, searched, with a pipe that fails, converted from its old file, joined, tallied with its score, a
front taken back, and its reliability by age.

    examples/run-python [FILE]

With FILE the study file is left there as well.
"""
import ctypes
import pathlib
import sys

SHARED = pathlib.Path(__file__).resolve().parent.parent / "target" / "libmedlarbrace.so"
LIBRARY = ctypes.CDLL(str(SHARED))
BYTE, WORD, LONG = ctypes.c_uint8, ctypes.c_uint32, ctypes.c_uint64
TO_WORD, TO_LONG = ctypes.POINTER(WORD), ctypes.POINTER(LONG)

# the declarations of include/medlarbrace.h: a slice is a pointer and a count
SLICE = [ctypes.POINTER(BYTE), ctypes.c_size_t]
WORD_SLICE = [TO_WORD, ctypes.c_size_t]
CALLS = {
    "open": SLICE + WORD_SLICE,
    "round": SLICE + [LONG, TO_LONG, TO_LONG],
    "search": SLICE + [LONG] + SLICE + [TO_LONG],
    "write": SLICE * 3 + [LONG] * 3 + SLICE + [TO_LONG],
    "convert": SLICE * 2 + [TO_LONG],
    "series": SLICE * 3 + [TO_LONG],
    "parallel": SLICE * 3 + [TO_LONG],
    "tally_new": [WORD, WORD] + WORD_SLICE,
    "tally_add": SLICE + WORD_SLICE,
    "tally_remove": SLICE + WORD_SLICE,
    "tally_score": WORD_SLICE + [TO_WORD],
    "ageing": [LONG, TO_WORD],
    "weights": [WORD, WORD] + WORD_SLICE,
    "reliability": WORD_SLICE + [WORD, WORD] + [TO_LONG] * 3,
}
for name, types in CALLS.items():
    function = getattr(LIBRARY, "medlarbrace_" + name)
    function.argtypes, function.restype = types, WORD

OLD_FILE = bytes([0, 0, 1, 1, 2, 2, 0, 2, 2, 4, 4, 1, 0, 3, 3, 1, 0, 5, 5, 1, 3, 2, 5, 4])
OLD_FILE += b"".join(word.to_bytes(4, "little") for word in (6, 7, 1, 0, 1, 24, 18, 4))

HEADER_WORDS, RECORD_BYTES, TALLY_WORDS = 7, 133, 4229


class Refused(Exception):
    pass


def call(name, *arguments):
    number = getattr(LIBRARY, "medlarbrace_" + name)(*arguments)
    if number != 0:
        raise Refused(f"{name} refused with number {number}")


def lent(data):
    """A slice for a call that only reads it."""
    return (BYTE * len(data))(*data), len(data)


def write(nodes, arcs, rounds, source, target, round_count):
    room = len(nodes) + len(arcs) + len(rounds) + 32
    file, written = (BYTE * room)(), LONG()
    call("write", *lent(nodes), *lent(arcs), *lent(rounds), source, target, round_count, file, room, written)
    return bytes(file[: written.value])


def convert(old):
    """The file in the new form: at most a byte more for each arc."""
    room = len(old) + 1024
    file, written = (BYTE * room)(), LONG()
    call("convert", *lent(old), file, room, written)
    return bytes(file[: written.value])


def header(file):
    words = (WORD * HEADER_WORDS)()
    call("open", *lent(file), words, HEADER_WORDS)
    return list(words)


def place(file, number):
    start, count = LONG(), LONG()
    call("round", *lent(file), number, start, count)
    return start.value, count.value


def record(name, *arguments):
    """The record that search, series or parallel writes."""
    out, written = (BYTE * RECORD_BYTES)(), LONG()
    call(name, *arguments, out, RECORD_BYTES, written)
    return bytes(out[: written.value])


def fresh(n1, n2):
    """A tally of no rounds."""
    tally = (WORD * TALLY_WORDS)()
    call("tally_new", n1, n2, tally, TALLY_WORDS)
    return tally


def add(tally, front):
    call("tally_add", *lent(front), tally, TALLY_WORDS)


def take_back(tally, front):
    call("tally_remove", *lent(front), tally, TALLY_WORDS)


def score(tally):
    """The sum of all cells: one number to watch while rounds come in."""
    out = WORD()
    call("tally_score", tally, TALLY_WORDS, out)
    return out.value


def chance_at(age):
    chance = WORD()
    call("ageing", age, chance)
    return chance.value


def weights(n, chance):
    out = (WORD * (n + 1))()
    call("weights", n, chance, out, n + 1)
    return list(out)


def reliability(tally, chance1, chance2):
    total, rounds, rate = LONG(), LONG(), LONG()
    call("reliability", tally, TALLY_WORDS, chance1, chance2, total, rounds, rate)
    return rate.value


def print_pairs(name, front):
    print(f"{name}:", *(f"{front[i]},{front[i + 1]}" for i in range(3, len(front), 2)))


def print_counts(tally):
    """The cells by l1, the number of class 1 stations that work, and within a line by l2."""
    n1, n2 = tally[0], tally[1]
    for l1 in range(n1 + 1):
        row = 4 + l1 * (n2 + 1)
        print(f"count {l1}:", *tally[row : row + n2 + 1])


def print_rate(name, rate):
    print(f"{name}: {rate // 10000000}.{rate % 10000000:07}")


def main():
    # nodes 0 to 5: source and target never fail, two stations of each class
    nodes = [0, 0, 1, 1, 2, 2]
    # from, to, kind: kind 0 leads one way and never fails
    arcs = [0, 2, 0, 2, 4, 0, 4, 1, 0, 0, 3, 0, 3, 1, 0, 0, 5, 0, 5, 1, 0]
    # one round, by places in the class: 3, the second of class 1, fails before 2, and 5 before 4
    file = write(nodes, arcs, [1, 0, 1, 0], 0, 1, 1)
    if len(sys.argv) > 1:
        pathlib.Path(sys.argv[1]).write_bytes(file)
    n, a, m, s, t, n1, n2 = header(file)
    start, count = place(file, 0)
    print(f"file: {len(file)} bytes")
    print(f"nodes {n} arcs {a} rounds {m} source {s} target {t} sizes {n1} {n2}")
    print(f"round 0: {count} bytes from byte {start}")

    front = record("search", *lent(file), 0)
    # the front of another block of the same class sizes: one pair, (2, 3)
    other = [2, 2, 1, 2, 3]
    print_pairs("front", front)
    # the last pipe, 5 to 1, of class 2: its third member, after nodes 4 and 5, and the first to fail
    piped = write(nodes, arcs[:-1] + [2], [1, 0, 2, 1, 0], 0, 1, 1)
    print_pairs("front with a pipe that fails", record("search", *lent(piped), 0))
    # the ring's file up to version 2.1: two bytes an arc, orders by node numbers
    new = convert(OLD_FILE)
    print(f"converted: {len(new)} bytes,", "the same" if new == file else "different")
    print_pairs("row", record("series", *lent(front), *lent(other)))
    print_pairs("side", record("parallel", *lent(front), *lent(other)))

    tally = fresh(n1, n2)
    add(tally, front)
    print("score, one front:", score(tally))
    # the other block's front was added by mistake, and is taken back
    add(tally, other)
    print("score, two fronts:", score(tally))
    take_back(tally, other)
    print("score, one taken back:", score(tally))
    print_counts(tally)
    print("weights of 2 at 0.9:", *weights(2, 900000))
    for age in range(31):
        # every station of both classes of the same age
        chance = chance_at(age)
        print_rate(f"age {age}", reliability(tally, chance, chance))


if __name__ == "__main__":
    try:
        main()
    except (Refused, OSError) as why:
        sys.exit(f"ring: {why}")
