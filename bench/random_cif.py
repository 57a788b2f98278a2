#!/usr/bin/env python3
"""Writes random cells with their CIF texts, and random CIF texts with the areas of their layers, for the program run_tests.

    random_cif.py [SEED] >crates/run_tests/data/random_cif.cases

Cells are painted square by square, and a text is written from their squares. A text is read byte by byte, each box is moved square by square
through each chain of calls, and the squares of a layer are counted. Nothing of this comes from the program.
"""
import random
import sys
from fractions import Fraction

from random_cases import answer, any_technology, lines_of, written_cases
from random_edits import strips
from random_squares import Flat, below, random_library, script_of

EDGE, MOST_DEPTH = 67108858, 64
DIGITS, LETTERS = "0123456789", "ABCDEFGHIJKLMNOPQRSTUVWXYZ"


class Fault(Exception):
    def __init__(self, code):
        self.code = code


# ---- the text of a cell
def parts_of(tech):
    """The parts in order: the atoms in the order of their types, and then the marks of the contacts in the order of their lines."""
    atoms = [layer["name"] for _, layer in tech.types if id(layer) not in tech.contacts and id(layer) not in tech.results]
    return atoms + ["mark of " + layer["name"] for layer in tech.contacts.values()]


def box_line(strip):
    xlo, ylo, xhi, yhi = strip
    return "B %d %d %d %d;" % (2 * (xhi - xlo), 2 * (yhi - ylo), xlo + xhi, ylo + yhi)


def call_line(number, use, step):
    a, b, d, e = use.orient
    dx, dy = a * step[0] + b * step[1] + use.shift[0], d * step[0] + e * step[1] + use.shift[1]
    mirrored = a * e - b * d == -1
    p, q = (-a, -d) if mirrored else (a, d)
    turn = "" if (p, q) == (1, 0) else " R %d %d" % (p, q)
    return "C %d%s%s T %d %d;" % (number, " M X" if mirrored else "", turn, 2 * dx, 2 * dy)


def symbol_lines(flat, cell, number, numbers):
    lines = ["DS %d 1 2;" % number, "9 %s;" % cell.name]
    own = flat.own(cell)
    for k, part in enumerate(parts_of(flat.tech), 1):
        squares = {(x, y) for (_, y, x), kinds in own.items() if part in kinds}
        lines += ["L P%d;" % k] * bool(squares) + [box_line(strip) for strip in strips(squares)]
    for use in cell.uses:
        if flat.whole(use.child):
            lines += [call_line(numbers[use.child.name], use, step) for step in use.steps()]
    return lines + ["DF;"]


def cell_text(flat, cell):
    order = below(cell)
    numbers = {other.name: number for number, other in enumerate(order, 1)}
    lines = [line for other in order for line in symbol_lines(flat, other, numbers[other.name], numbers)]
    return lines + ["C %d;" % numbers[cell.name], "E"], len(order)


def areas(flat, cell):
    """What the flat layout of a cell has of each part that stands there."""
    whole = flat.whole(cell)
    for k, part in enumerate(parts_of(flat.tech), 1):
        count = len({(x, y) for (_, y, x), kinds in whole.items() if part in kinds})
        if count:
            yield "P%d" % k, count


def cell_cases(dice, count):
    number = 0
    while number < count:
        text, tech = any_technology(dice)
        cells = random_library(dice, tech)
        flat = Flat(tech)
        if not flat.whole(cells[-1]):
            continue
        number += 1
        written, symbols = cell_text(flat, cells[-1])
        name = cells[-1].name
        script = ["tech t"] + list(script_of(cells)) + ["cif " + name, "cifstat " + name]
        report = [answer("t.tech", text)[0]] + ["ok"] * (len(script) - 3) + ["cif %s: %d symbols" % (name, symbols)]
        counted = dict(areas(flat, cells[-1]))
        seen = list(dict.fromkeys(line[2:-1] for line in written if line.startswith("L ")))
        report += ["layer %s area %d" % (layer, counted.get(layer, 0)) for layer in seen] + ["cifstat %s: %d layers" % (name, len(seen))]
        yield "cell %d" % number, [("t.tech", text)], script, report, 0, [(name + ".cif", written)]


# ---- a text read byte by byte
def commands_of(text):
    """The commands up to the end: each with its first line, its bytes without comments, and whether a semicolon ends it."""
    line, depth, command, first = 1, 0, "", None
    for byte in text:
        over = command.lstrip()[:1] in DIGITS and command.strip() != ""
        if depth or (byte == "(" and not over):
            depth += {"(": 1, ")": -1}.get(byte, 0)
            command += " "
        elif byte == ";":
            yield first or line, command, True
            command, first = "", None
        else:
            blank = byte not in DIGITS + LETTERS + "-()"
            if first is None and not blank:
                first = line
            command += " " if blank else byte
        line += byte == "\n"
    yield first or line, command, False


def words_of(command):
    words, at = [], 0
    while at < len(command):
        byte = command[at]
        end = at + 1
        if byte in DIGITS or byte == "-" and command[end:end + 1] and command[end] in DIGITS:
            while end < len(command) and command[end] in DIGITS:
                end += 1
            if command[end:end + 1] == "-":
                words.append("?")
            words.append(int(command[at:end]))
        elif byte in LETTERS:
            words.append(byte)
        elif byte != " ":
            words.append("?")
        at = end
    return words


def whole(value):
    if value.denominator != 1:
        raise Fault("K5")
    return int(value)


class Reader:
    def __init__(self):
        self.symbols, self.layers, self.top, self.opened, self.layer, self.ended = {}, [], [], None, None, False

    def items(self):
        return self.top if self.opened is None else self.opened["items"]

    def scale(self):
        return Fraction(1) if self.opened is None else self.opened["scale"]

    def command(self, text, closed):
        text = text.strip()
        words = words_of(text)
        if not text or text[0] in DIGITS:
            if text and not closed:
                raise Fault("K1")
        elif words[0] == "E":
            if self.opened is not None:
                raise Fault("K1")
            self.ended = True
        elif words[0] == "L":
            name = text[1:].strip()
            if not closed or not 1 <= len(name) <= 4 or any(byte not in DIGITS + LETTERS for byte in name):
                raise Fault("K1")
            self.layer = name
        else:
            self.worded(words, closed)

    def worded(self, words, closed):
        if words[0] in ("P", "W", "R") or words[:2] == ["D", "D"]:
            raise Fault("K2")
        if words[0] == "B":
            self.box(words[1:], closed)
        elif words[0] == "C":
            self.call(words[1:], closed)
        elif words[:2] == ["D", "S"]:
            self.start(words[2:], closed)
        elif words == ["D", "F"] and closed and self.opened is not None:
            self.symbols[self.opened["number"]] = self.opened["items"]
            self.layer, self.opened = self.opened["layer"], None
        else:
            raise Fault("K1")

    def box(self, words, closed):
        if any(not isinstance(word, int) for word in words) or len(words) not in (4, 6):
            raise Fault("K1")
        if len(words) == 6:
            raise Fault("K2")
        if not closed or min(words[:2]) < 1:
            raise Fault("K1")
        check_range(words)
        if self.layer is None:
            raise Fault("K8")
        length, width, x, y = words
        area = [whole(self.scale() * Fraction(2 * centre + side * size, 2))
                for side in (-1, 1) for centre, size in ((x, length), (y, width))]
        if self.layer not in self.layers:
            self.layers.append(self.layer)
        self.items().append(("box", self.layer, area))

    def call(self, words, closed):
        if "?" in words or not words or not isinstance(words[0], int):
            raise Fault("K1")
        moves, rest, well = [], words[1:], True
        while rest and well:
            if rest[:2] in (["M", "X"], ["M", "Y"]):
                moves, rest = moves + [("M", rest[1])], rest[2:]
            elif rest[0] in ("T", "R") and len(rest) > 2 and isinstance(rest[1], int) and isinstance(rest[2], int):
                moves, rest = moves + [(rest[0], rest[1], rest[2])], rest[3:]
            else:
                well = False
        if any(move[0] == "R" and (move[1] == 0) == (move[2] == 0) for move in moves):
            raise Fault("K2")
        if not closed or not well:
            raise Fault("K1")
        check_range([words[0]] + [number for move in moves for number in move[1:] if isinstance(number, int)])
        if words[0] not in self.symbols:
            raise Fault("K3")
        scaled = [("T", whole(self.scale() * move[1]), whole(self.scale() * move[2])) if move[0] == "T" else move for move in moves]
        self.items().append(("call", words[0], scaled))

    def start(self, words, closed):
        if not closed or any(not isinstance(word, int) for word in words) or len(words) not in (1, 3) or self.opened is not None:
            raise Fault("K1")
        up, down = words[1:] or (1, 1)
        if not (1 <= up <= 10 ** 6 and 1 <= down <= 10 ** 6):
            raise Fault("K1")
        check_range(words[:1])
        if words[0] in self.symbols:
            raise Fault("K4")
        self.opened = {"number": words[0], "scale": Fraction(up, down), "items": [], "layer": self.layer}
        self.layer = None


def check_range(numbers):
    if any(not -2 ** 31 <= number < 2 ** 31 for number in numbers):
        raise Fault("K6")


def read(text):
    """What a text says, or the line and the code of its first fault."""
    reader = Reader()
    for line, command, closed in commands_of(text):
        try:
            reader.command(command, closed)
        except Fault as fault:
            return None, (line, fault.code)
        if reader.ended:
            return reader, None
    return None, (max(1, len(lines_of(text))), "K7")


# ---- what it means
def step(move, x, y):
    """Where a step takes the corner of a square."""
    if move[0] == "T":
        return x + move[1], y + move[2]
    if move[0] == "M":
        return (-x, y) if move[1] == "X" else (x, -y)
    p, q = ((move[1] > 0) - (move[1] < 0), (move[2] > 0) - (move[2] < 0))
    return p * x - q * y, q * x + p * y


def boxes(reader, items, moves):
    """Each box of these items and of all that they call, moved by the steps of the calls from the inmost outward."""
    for kind, what, rest in items:
        if kind == "call":
            yield from boxes(reader, reader.symbols[what], [rest] + moves)
            continue
        corners = [(rest[0], rest[1]), (rest[2], rest[3])]
        for call in moves:
            for move in call:
                corners = [step(move, *corner) for corner in corners]
        (a, b), (c, d) = corners
        yield what, (min(a, c), min(b, d), max(a, c), max(b, d))


def depth(reader, items):
    return max([1 + depth(reader, reader.symbols[what]) for kind, what, _ in items if kind == "call"], default=0)


def stat(name, number, text):
    """The lines that answer `cifstat`, or its refusal."""
    reader, fault = read(text)
    if fault:
        return ["line %d: E30 %s.cif %d %s" % ((number, name) + fault)]
    if depth(reader, reader.top) > MOST_DEPTH:
        return ["line %d: E18 too many Depth" % number]
    squares = {layer: set() for layer in reader.layers}
    for layer, (xlo, ylo, xhi, yhi) in boxes(reader, reader.top, []):
        if not all(-EDGE <= edge <= EDGE for edge in (xlo, ylo, xhi, yhi)):
            return ["line %d: E12 out of range" % number]
        squares[layer] |= {(x, y) for x in range(xlo, xhi) for y in range(ylo, yhi)}
    return ["layer %s area %d" % (layer, len(found)) for layer, found in squares.items()] + ["cifstat %s: %d layers" % (name, len(squares))]


# ---- random texts
def blanks(dice):
    return dice.choice([" ", " ", " ", "  ", "\n", "\t", ",", "(x)", " (a (b;) c) ", "lower"])


def spaced(dice, words):
    text = ""
    for before, word in zip([None] + words, words):
        both = before is not None and str(before)[-1] in DIGITS and str(word)[0] in DIGITS + "-"
        text += (blanks(dice) if both or dice.random() < 0.6 else "") + str(word)
    return text


def random_box(dice, even):
    length, width = dice.randint(1, 6), dice.randint(1, 6)
    x, y = dice.randint(-8, 8), dice.randint(-8, 8)
    if even:
        length, width, x, y = 2 * length, 2 * width, 2 * x, 2 * y
    words = ["B", length, width, x, y]
    if dice.random() < 0.04:
        words = dice.choice([["B", 0, 2, 0, 0], ["B", 2, 2, 0], words + [1, 0], ["B", 2, -2, 0, 0], ["B", 3000000000, 2, 0, 0], words + ["X"],
                             ["B", 2, 2, 134217716, 0], ["B", 2, 2, 134217720, 0]])
    return words


def random_call(dice, numbers, even):
    words = ["C", dice.choice(numbers) if dice.random() < 0.96 else 77]
    for _ in range(dice.choice([0, 1, 1, 2, 3])):
        shift = ["T", dice.randint(-9, 9) * (1 + even), dice.randint(-9, 9) * (1 + even)]
        turn = ["R"] + dice.choice([[1, 0], [0, 3], [-2, 0], [0, -1]])
        words += dice.choice([shift, shift, turn, ["M", "X"], ["M", "Y"]])
    if dice.random() < 0.03:
        words += dice.choice([["R", 1, 1], ["R", 0, 0], ["T", 1], ["M"], ["X"], ["T", 2147483648, 0], [5]])
    return words


def random_commands(dice, numbers):
    first = [["L" + dice.choice(["P1", "P2"])]] if dice.random() < 0.95 else []
    return first + [random_command(dice, numbers, dice.random() < 0.97) for _ in range(dice.randint(0, 4))]


def random_text(dice):
    commands, numbers, even = [], [], True
    for _ in range(dice.randint(0, 3)):
        number = dice.choice([1, 2, 3, -4, 50]) if dice.random() < 0.1 else len(numbers) + 1
        up, down = dice.choice([(1, 1), (1, 2), (2, 1), (3, 2), (1, 2)])
        commands.append(["DS", number] + ([up, down] if dice.random() < 0.8 else []))
        commands += random_commands(dice, numbers) + [["DF"]]
        numbers.append(number)
    commands += random_commands(dice, numbers)
    text = "".join(spaced(dice, words) + ";" + dice.choice(["\n", "\n", " ", "", "(;)"]) for words in commands)
    text += dice.choice(["E", "E", "E\n", "E\n", " E (end)\nB", "E nothing;", ""]) if dice.random() < 0.97 else "E;"
    if dice.random() < 0.08 and text:
        at = dice.randrange(len(text))
        text = text[:at] + dice.choice("();-9LX \n") + text[at + dice.randint(0, 1):]
    return text


def random_command(dice, numbers, even):
    kind = dice.random()
    if kind < 0.3:
        return ["L" + dice.choice(["P1", "P2", "CMF", " ABCD "])]
    if kind < 0.75:
        return random_box(dice, even)
    if kind < 0.93 and numbers:
        return random_call(dice, numbers, even)
    return dice.choice([["9 name (of the cell)"], ["0 user"], [""], ["L ABCDE"], ["P", 1, 2, 3, 4], ["W", 2, 0, 0, 2, 2], ["DD", 1], ["DF"], ["X"],
                        ["( all blank )"]])


def text_cases(dice, count):
    number = 0
    while number < count:
        text = random_text(dice)
        report = stat("f", 1, text)
        if report[0].startswith("line") and dice.random() < 0.6:
            continue
        number += 1
        yield "text %d" % number, [("f.cif", text)], ["cifstat f"], report, int(report[0].startswith("line")), []


def all_cases(dice):
    yield from cell_cases(dice, 50)
    yield from text_cases(dice, 150)


def main():
    dice = random.Random(int(sys.argv[1]) if len(sys.argv) > 1 else 43)
    print("# Random cases, written by bench/random_cif.py. Their answers were worked out there, apart from the program.")
    written_cases(all_cases(dice))


if __name__ == "__main__":
    main()
