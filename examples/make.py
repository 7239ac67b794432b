"""Writes the example circuits, and for each a row (witness) that it accepts. Each is evaluated from its bytes first."""
import sys
from pathlib import Path

XOR, AND, INV = 1, 2, 3


def u32(*numbers):
    return b"".join(n.to_bytes(4, "little") for n in numbers)


def circuit(inputs, outputs, gates, slot_of):
    """The file: gates are (kind, a, b) in chain order, where a wire is ("in", number) or ("gate", place in the chain);
    slot_of says in which slot, from 1, the gate of a place is."""
    count = len(gates)
    wire = {"in": lambda j: j, "gate": lambda i: inputs + slot_of(i) - 1}
    number = lambda w: wire[w[0]](w[1]) if w else 0
    records = [b""] * count
    for i, (kind, a, b) in enumerate(gates):
        following = slot_of(i + 1) if i + 1 < count else 0
        records[slot_of(i) - 1] = u32(kind, number(a), number(b), following)
    head = slot_of(0) if gates else 0
    return u32(inputs, len(outputs), count, head, *map(number, outputs)) + b"".join(records)


def evaluate(file, row):
    """The output bits, with the rules of reading asserted on the way."""
    get = lambda at: int.from_bytes(file[at : at + 4], "little")
    inputs, outs, count, slot = get(0), get(4), get(8), get(12)
    assert 1 <= inputs <= 512 and 1 <= outs <= 256 and count <= 100_000
    assert len(file) == 16 + 4 * outs + 16 * count and len(row) == (inputs + 7) // 8
    value = {j: row[j // 8] >> j % 8 & 1 for j in range(inputs)}
    for _ in range(count):
        assert 1 <= slot <= count
        at = 16 + 4 * outs + 16 * (slot - 1)
        kind, a, b = get(at), get(at + 4), get(at + 8)
        assert kind in (XOR, AND, INV) and (kind != INV or b == 0)
        x = value[a]
        result = {XOR: lambda: x ^ value[b], AND: lambda: x & value[b], INV: lambda: 1 - x}[kind]()
        assert inputs + slot - 1 not in value
        value[inputs + slot - 1] = result
        slot = get(at + 12)
    assert slot == 0
    return [value[get(16 + 4 * j)] for j in range(outs)]


def compare(gates, width, a, b):
    """Adds gates for output 0: is number a at least number b? a and b are the first wires of the two. Gives the outputs: the
    bits of b follow, so that what is claimed says which b: a row with a and b of its own choice would show nothing.
    The borrow of a - b goes from bit to bit: where the bits differ it becomes that of b, else it stays. So
    borrow' = (NOT a AND b) OR (borrow AND NOT (a XOR b)) = borrow XOR ((a XOR b) AND (b XOR borrow)): one AND for each bit."""

    def gate(kind, x, y=None):
        gates.append((kind, x, y))
        return ("gate", len(gates) - 1)

    borrow = None
    for j in range(width):
        x, y = ("in", a + j), ("in", b + j)
        differ = gate(XOR, x, y)
        if borrow is None:
            borrow = gate(AND, differ, y)
        else:
            borrow = gate(XOR, borrow, gate(AND, differ, gate(XOR, y, borrow)))
    answer = gate(INV, borrow)
    return [answer, *(("in", b + j) for j in range(width))]


def at_least(inputs, width, *pairs):
    """The circuit of one comparison after the other, each of a pair of numbers of a row, by their first wires."""
    gates, outputs = [], []
    for a, b in pairs:
        outputs += compare(gates, width, a, b)
    return circuit(inputs, outputs, gates, lambda i: i + 1)


def grade():
    """The sum of three scores of 4 bits each, in 6 bits. A carry is that of the bits before, unless they differ from it:
    carry' = carry XOR ((x XOR carry) AND (y XOR carry))."""
    gates = []

    def gate(kind, x, y):
        gates.append((kind, x, y))
        return ("gate", len(gates) - 1)

    def add(sum, score):
        carry, result = None, []
        for j, x in enumerate(sum):
            y = score[j] if j < len(score) else None
            if carry is None:
                result.append(gate(XOR, x, y))
                carry = gate(AND, x, y)
            elif y is None:
                result.append(gate(XOR, x, carry))
                carry = gate(AND, x, carry)
            else:
                differ = gate(XOR, x, carry)
                result.append(gate(XOR, differ, y))
                carry = gate(XOR, carry, gate(AND, differ, gate(XOR, y, carry)))
        return result + [carry]

    scores = [[("in", 4 * k + j) for j in range(4)] for k in range(3)]
    return circuit(12, add(add(scores[0], scores[1]), scores[2]), gates, lambda i: i + 1)


def scores_row(*scores):
    return sum(score << 4 * k for k, score in enumerate(scores)).to_bytes(2, "little")


def check_grade(file):
    """Evaluates the circuit on every row."""
    for row in range(2**12):
        total = (row & 15) + (row >> 4 & 15) + (row >> 8)
        assert evaluate(file, row.to_bytes(2, "little")) == bits(6, total)


def worst():
    """512 inputs, one AND after the other through 4,096 slots in a mixed order."""
    gates = [(AND, ("in", 0), ("in", 1))]
    gates += [(AND, ("gate", i - 1), ("in", (i + 1) % 512)) for i in range(1, 4096)]
    return circuit(512, [("gate", 4095)], gates, lambda i: 2731 * i % 4096 + 1)


def numbers_row(width, *values):
    """The row of numbers, the first in the low bits."""
    return sum(value << width * k for k, value in enumerate(values)).to_bytes(len(values) * width // 8, "little")


def pair(width, low, high):
    return numbers_row(width, low, high)


def numbers(width):
    top = 2**width - 1
    return [0, 1, 2, 3, 7, 8, 255, 256, 1000, top // 2, top // 2 + 1, top - 1, top]


def bits(width, number):
    return [number >> j & 1 for j in range(width)]


def check_pairs(file, width, a_first):
    """Evaluates the circuit on pairs of numbers at the edges, a or b in the low bits of the row."""
    for a in numbers(width):
        for b in numbers(width):
            row = pair(width, a, b) if a_first else pair(width, b, a)
            assert evaluate(file, row) == [int(a >= b), *bits(width, b)]


def check_goods(enough, indate, both):
    """Evaluates the circuits over stock, order, date and today; the joined one is the two side by side."""
    for stock, order in [(1000, 250), (249, 250), (250, 250), (0, 65535), (65535, 0)]:
        for date, today in [(20_045, 20_000), (19_999, 20_000), (20_000, 20_000)]:
            row = numbers_row(16, stock, order, date, today)
            covered = [int(stock >= order), *bits(16, order)]
            fresh = [int(date >= today), *bits(16, today)]
            assert evaluate(enough, row) == covered and evaluate(indate, row) == fresh
            assert evaluate(both, row) == covered + fresh


def write(folder, name, file, row):
    (folder / f"{name}.circuit").write_bytes(file)
    (folder / f"{name}.row").write_bytes(row)


def main(folder):
    ones = bytes([255] * 64)
    goods, spoiled = numbers_row(16, 1000, 250, 20_045, 20_000), numbers_row(16, 249, 250, 19_999, 20_000)
    table = {
        # name: the circuit, a row that it accepts, a row that it does not
        "covers16": (at_least(32, 16, (0, 16)), pair(16, 1000, 250), pair(16, 250, 1000)),
        "covers32": (at_least(64, 32, (0, 32)), pair(32, 3_000_000_000, 2_999_999_999), pair(32, 2_999_999_999, 3_000_000_000)),
        "fresh": (at_least(32, 16, (16, 0)), pair(16, 20_000, 20_045), pair(16, 20_045, 20_000)),
        # Over one row: stock, order, the row's date, today.
        "enough": (at_least(64, 16, (0, 16)), goods, spoiled),
        "indate": (at_least(64, 16, (32, 48)), goods, spoiled),
        "both": (at_least(64, 16, (0, 16), (32, 48)), goods, spoiled),
        "worst": (worst(), ones, ones[:-1] + b"\x7f"),
    }
    check_pairs(table["covers16"][0], 16, True)
    check_pairs(table["covers32"][0], 32, True)
    check_pairs(table["fresh"][0], 16, False)
    check_goods(*(table[name][0] for name in ("enough", "indate", "both")))
    for name, (file, row, failing) in table.items():
        assert evaluate(file, row)[0] == 1 and evaluate(file, failing)[0] == 0
        write(folder, name, file, row)
    graded = grade()
    check_grade(graded)
    # Look, taste and size: a grade of 33.
    write(folder, "grade", graded, scores_row(9, 12, 12))


main(Path(sys.argv[1]) if len(sys.argv) > 1 else Path(__file__).resolve().parent)
