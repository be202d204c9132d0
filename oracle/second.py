"""A second reading of the texts, from the documents: a list's text, a laboratory's text (OpenQASM 2.0), and what each program prints for one.

Refusals 3, 6 to 9, 14 and 18 of a list, and what the pass makes of it, come from the oracle (target/oracle/oracle, which oracle/build makes from the
original's text)."""
import itertools
import os
import re
import struct
import subprocess

from sizes import FIELDS, MOST_BITS, MOST_BYTES, MOST_GATES, MOST_WIRES, WIDTH

ORACLE = os.path.join(os.path.dirname(os.path.abspath(__file__)), "..", "target", "oracle", "oracle")
TOP = 2147483647


class Refused(Exception):
    """With its number, place and field."""


# ---- a list's text


def natural(word):
    """The number from 0 to the largest, or none."""
    return int(word) if re.fullmatch(rb"0|[1-9][0-9]*", word) and int(word) <= TOP else None


def signed(word):
    """The number of 32 signed bits, or none."""
    good = re.fullmatch(rb"0|-?[1-9][0-9]*", word) and -TOP - 1 <= int(word) <= TOP
    return int(word) if good else None


class Lines:
    """The lines of a text, asked for one by one: a line that is missing or has no LF is refused by `number`."""

    def __init__(self, text, number):
        self.rest, self.at, self.refusal = text, 0, number

    def next(self):
        self.at += 1
        line, end, self.rest = self.rest.partition(b"\n")
        if not end:
            self.wrong()
        return line

    def wrong(self):
        raise Refused(self.refusal, self.at, 0)

    def taken(self, value):
        if value is None:
            self.wrong()
        return value

    def end(self):
        if self.rest:
            self.at += 1
            self.wrong()


def few_bytes(text):
    if len(text) > MOST_BYTES:
        raise Refused(10, 0, 0)


def in_line(head):
    """How many numbers a gate's line has."""
    return head[4] if len(head) > 4 else FIELDS


def read_list(text):
    """The head's numbers, four or five of them, and the gates' numbers, in rows with a line."""
    few_bytes(text)
    lines = Lines(text, 11)
    size = {b"head 4": 4, b"head 5": 5}.get(lines.next())
    head = [lines.taken(natural(lines.next())) for _ in range(lines.taken(size))]
    if in_line(head) not in (FIELDS, WIDTH):
        lines.wrong()
    word, space, count = lines.next().partition(b" ")
    count = lines.taken(natural(count) if word + space == b"gates " else None)
    if count > MOST_GATES:
        raise Refused(12, lines.at, 0)
    numbers = []
    for _ in range(count):
        words = lines.next().split(b" ")
        if len(words) != in_line(head):
            lines.wrong()
        numbers += [lines.taken(signed(word)) for word in words] + [0] * (WIDTH - in_line(head))
    lines.end()
    return head, numbers


def rows(numbers):
    return [numbers[i : i + WIDTH] for i in range(0, len(numbers), WIDTH)]


def list_text(head, numbers):
    gates = [" ".join(map(str, row[: in_line(head)])) for row in rows(numbers)]
    lines = [f"head {len(head)}", *head, f"gates {len(gates)}", *gates]
    return "".join(f"{line}\n" for line in lines).encode()


# ---- a laboratory's text

PLAIN = {"x": 1, "t": 2, "tdg": 3, "s": 4, "sdg": 5, "z": 6, "h": 10, "y": 11, "reset": 13}
PAIRS = {"cx": 8, "cz": 9}
NAMES = {code: name for name, code in [*PLAIN.items(), *PAIRS.items()]}


def index(word, size):
    n = natural(word)
    return n if n is not None and n < size else None


def statement(line, wires, bits):
    """The gate of a statement, or none."""
    m = re.fullmatch(rb"([a-z]+) q\[(-?\d+)\];", line)
    if m and m[1].decode() in PLAIN:
        found = [index(m[2], wires)]
        gate = [PLAIN[m[1].decode()], found[0], 0, 0, 0]
    elif m := re.fullmatch(rb"rz\((-?\d+)\*pi/4\) q\[(\d+)\];", line):
        found = [index(m[2], wires), signed(m[1])]
        gate = [7, found[0], 0, 0, found[1]]
    elif (m := re.fullmatch(rb"([a-z]+) q\[(\d+)\],q\[(\d+)\];", line)) and m[1].decode() in PAIRS:
        found = [index(m[2], wires), index(m[3], wires)]
        gate = [PAIRS[m[1].decode()], *found, 0, 0]
    elif m := re.fullmatch(rb"ccx q\[(\d+)\],q\[(\d+)\],q\[(\d+)\];", line):
        found = [index(m[k], wires) for k in (1, 2, 3)]
        gate = [24, *found, 0]
    elif m := re.fullmatch(rb"measure q\[(\d+)\] -> c\[(\d+)\];", line):
        found = [index(m[1], wires), index(m[2], bits)]
        gate = [27, *found, 0, 0]
    else:
        return None
    on = gate[1 : {8: 3, 9: 3, 24: 4}.get(gate[0], 2)]
    return None if None in found or len(set(on)) < len(on) else gate


def register(text, form):
    """A register at the front: its size and what is left, or 0 and the text as it was."""
    line, end, rest = text.partition(b"\n")
    m = re.fullmatch(form, line)
    size = natural(m[1]) if m and end else None
    return (size, rest, 1) if size else (0, text, 0)


def read_qasm(text):
    """Wires, bits, and the gates' numbers, the last of each the statement's line."""
    few_bytes(text)
    lines = Lines(text, 13)
    for word in (b"OPENQASM 2.0;", b'include "qelib1.inc";'):
        if lines.next() != word:
            lines.wrong()
    wires, lines.rest, one = register(lines.rest, rb"qreg q\[(\d+)\];")
    bits, lines.rest, two = register(lines.rest, rb"creg c\[(\d+)\];")
    lines.at += one + two
    numbers = []
    while lines.rest:
        numbers += lines.taken(statement(lines.next(), wires, bits)) + [lines.at]
    if len(numbers) > WIDTH * MOST_GATES:
        raise Refused(12, 0, 0)
    if wires > MOST_WIRES or bits > MOST_BITS:
        raise Refused(3, 0, 0)
    return wires, bits, numbers


def spelled(row):
    """A gate's statement, or none."""
    code, a, b, c, turn, _ = row
    if code in PLAIN.values():
        return f"{NAMES[code]} q[{a}];"
    if code in PAIRS.values():
        return f"{NAMES[code]} q[{a}],q[{b}];"
    more = {7: f"rz({turn}*pi/4) q[{a}];", 24: f"ccx q[{a}],q[{b}],q[{c}];", 27: f"measure q[{a}] -> c[{b}];"}
    return more.get(code)


def qasm_text(wires, bits, numbers):
    lines = ["OPENQASM 2.0;", 'include "qelib1.inc";']
    lines += [f"qreg q[{wires}];"] * (wires > 0) + [f"creg c[{bits}];"] * (bits > 0)
    for i, row in enumerate(rows(numbers)):
        line = spelled(row)
        if line is None:
            raise Refused(13, i, 0)
        lines.append(line)
    return "".join(f"{line}\n" for line in lines).encode()


# ---- what each program prints. A program is two steps: what it asks the oracle of a text, and what it makes of the oracle's answer


def asked(head, numbers):
    """A list with exact rooms, as the oracle reads it."""
    g = len(numbers) // WIDTH
    return struct.pack("<9Q", *head[:4], len(numbers), len(numbers), 9 * g, 2 * (g + 128), 0) + struct.pack(f"<{len(numbers)}i", *numbers)


def answers(cases):
    """The oracle's answers: a refusal, or the counts and the new gates."""
    said = subprocess.run([ORACLE, "answer"], input=b"".join(asked(*c) for c in cases), stdout=subprocess.PIPE, check=True).stdout
    at, out = 0, []
    for _ in cases:
        number, _, place = struct.unpack_from("<3I", said, at)
        if number:
            (field,) = struct.unpack_from("<I", said, at + 12)
            out.append(Refused(number, place, field))
            at += 16
            continue
        counts = struct.unpack_from("<8I", said, at + 8)
        gates = struct.unpack_from(f"<{WIDTH * counts[1]}i", said, at + 40)
        out.append((counts, gates))
        at += 40 + 4 * WIDTH * counts[1]
    assert at == len(said)
    return out


def listed(head, numbers, counts, gates):
    lines = ["counts 8", *counts]
    return list_text(head, gates) + "".join(f"{line}\n" for line in lines).encode()


def imported(text):
    wires, bits, numbers = read_qasm(text)
    return [wires, bits, 128, 512, WIDTH], numbers


def cut(gates, qubits=128, terms=512):
    """The runs that a list of right gates is cut into, by document 01's rules: blocks, and the gates between them. A wire's parity is a set of wires,
    as the digits of a number. (A qubit cap of 1 would leave some gates of the fragment in no block; here it isn't met.)"""
    runs, run, held, table = [], [], {}, set()
    for gate in gates:
        code, a, b = gate[:3]
        on = {a, b} if code in (8, 9) else {a}
        turned = 2 <= code <= 7 and held.get(a, 1 << a) not in table and len(table) >= terms
        if code > 9 or turned or len(held.keys() | on) > qubits:
            runs, run, held, table = runs + [run], [], {}, set()
        if code > 9:
            runs.append([gate])
            continue
        run.append(gate)
        for q in on - held.keys():
            held[q] = 1 << q
        if code == 8:
            held[b] ^= held[a]
        elif code == 9:
            table |= {held[a], held[b], held[a] ^ held[b]}
        elif code > 1:
            table.add(held[a])
    return [run for run in runs + [run] if run]


def traced(head, numbers, counts, gates):
    """Each new gate's statement, with the line that it was copied from or the lines of the block that was written again. A block is as it was where its
    gates are, line by line: no two statements have one line, and all gates of a new writing have that of the first."""
    left, lines = rows(list(gates)), []
    for run in cut(rows(numbers)):
        if left[: len(run)] == run:
            notes = [f"line {row[-1]}" for row in run]
        else:
            new = itertools.takewhile(lambda row: row[-1] == run[0][-1], left)
            notes = [f"lines {run[0][-1]} to {run[-1][-1]}" for _ in new]
        lines += [f"{spelled(row)} // {note}" for row, note in zip(left, notes)]
        left = left[len(notes) :]
    assert not left
    return "".join(f"{line}\n" for line in lines).encode()


PROGRAMS = {
    "list": (read_list, listed),
    "import": (imported, lambda head, numbers, counts, gates: list_text(head, numbers)),
    "export": (read_list, lambda head, numbers, counts, gates: qasm_text(head[0], head[1], numbers)),
    "qasm": (imported, lambda head, numbers, counts, gates: qasm_text(head[0], head[1], gates)),
    "trace": (imported, traced),
}


def refused(number, place, field):
    return f"refused {number} {place} {field}\n".encode()


def wanted(program, texts):
    """What the program must print for each text."""
    read, made = PROGRAMS[program]
    lists = []
    for text in texts:
        try:
            lists.append(read(text))
        except Refused as told:
            lists.append(told)
    said = iter(answers([each for each in lists if not isinstance(each, Refused)]))
    out = []
    for each in lists:
        if isinstance(each, Refused):
            out.append(refused(*each.args))
            continue
        told = next(said)
        try:
            out.append(refused(*told.args) if isinstance(told, Refused) else made(*each, *told))
        except Refused as told:
            out.append(refused(*told.args))
    return out


# ---- texts as `texts_main` takes and gives them, and the examples of the decided readings

KINDS = ["list", "import", "export", "qasm", "trace"]


def packed(text):
    return struct.pack("<I", len(text)) + text


def replies(program, kind, texts):
    """What `texts_main`, or a program like it, prints for texts of a kind."""
    sent = b"".join(struct.pack("<I", KINDS.index(kind)) + packed(t) for t in texts)
    said = subprocess.run([program], input=sent, stdout=subprocess.PIPE, check=True).stdout
    at, out = 0, []
    while at < len(said):
        (n,) = struct.unpack_from("<I", said, at)
        out.append(said[at + 4 : at + 4 + n])
        at += 4 + n
    return out


def unfolded(text):
    """`|` is LF, \\r and \\xNN are bytes, {..}*N is N times."""
    text = re.sub(r"\{(.*?)\}\*(\d+)", lambda m: m[1] * int(m[2]), text)
    text = re.sub(r"\\x([0-9a-f]{2})", lambda m: chr(int(m[1], 16)), text.replace("|", "\n").replace("\\r", "\r"))
    return text.encode("latin-1")


def readings():
    """The program, the text, and what it prints, of each line of oracle/readings."""
    with open(os.path.join(os.path.dirname(os.path.abspath(__file__)), "readings"), encoding="ascii") as f:
        for line in f:
            if not line.startswith("#"):
                program, text, printed = line.rstrip("\n").split("\t\t")
                yield program, unfolded(text), unfolded(printed)
