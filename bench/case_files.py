"""Reads the cases of `crates/run_tests/data`, whose form `CASES.md` there tells."""
import re
from pathlib import Path

TOP = Path(__file__).resolve().parent.parent
DATA = TOP / "crates/run_tests/data"
ESCAPES = {b"n": b"\n", b"r": b"\r", b"t": b"\t", b"\\": b"\\"}
# A case with a text of more bytes is left out.
LONGEST_TEXT = 1 << 20


class Case:
    """A run, and what it is to leave."""

    def __init__(self, name, files):
        self.name, self.files, self.words, self.script, self.report, self.status = name, files, [], b"", b"", 0
        self.stored, self.others, self.is_long = [], [], False


class Edit:
    """A shared file, line by line, and the place of the line in whose stead a text stands."""

    def __init__(self, text):
        self.lines, self.place = re.findall(rb"[^\n]*\n|[^\n]+", text), None

    def put(self, text):
        if self.place is not None:
            self.lines[self.place] = text


def unescaped(text):
    return re.sub(rb"\\(x([0-9a-f]{2})|.)", lambda found: bytes([int(found[2], 16)]) if found[2] else ESCAPES[found[1]], text)


class Reading:
    """What was read so far of a file of cases."""

    def __init__(self, folder):
        self.shared, self.cases = dict(folder), []
        self.text, self.end, self.edit = b"", lambda text: None, None

    def read(self, line):
        key, _, rest = line.partition(b" ")
        if not line or line.startswith(b"#"):
            return
        if line.startswith(b"|"):
            self.text += line[1:] + b"\n"
        elif line.startswith(b"~"):
            self.text += unescaped(line[1:])
        elif key in (b"times", b"pad"):
            self.lengthen(key, rest)
        elif key == b"line":
            self.edit.put(self.text)
            self.edit.place, self.text = int(rest) - 1, b""
        else:
            self.begin(key.decode(), rest.decode())

    def lengthen(self, key, rest):
        count, _, copy = rest.partition(b" ")
        if int(count) * max(len(copy), 1) > LONGEST_TEXT:
            self.cases[-1].is_long = True
        elif key == b"times":
            self.text += int(count) * unescaped(copy)
        else:
            self.text = self.text.ljust(int(count))

    def finish(self):
        """The text of a block comes to its end."""
        self.end(self.text)
        self.text, self.end = b"", lambda text: None

    def begin(self, key, word):
        """What follows is for this."""
        self.finish()
        if key == "case":
            self.cases.append(Case(word, dict(self.shared)))
            return
        case = self.cases[-1] if self.cases else None
        files = case.files if case else self.shared
        if key in ("script", "report"):
            self.end = lambda text: setattr(case, key, text)
        elif key == "file":
            self.end = lambda text: files.update({word: text})
        elif key == "stored":
            self.end = lambda text: case.stored.append((word, text))
        elif key == "edit":
            edit = self.edit = Edit(self.shared[word])
            self.end = lambda text: (edit.put(text), files.update({word: b"".join(edit.lines)}))
        elif key == "word":
            case.words.append(word)
        elif key == "status":
            case.status = int(word)
        else:
            case.others.append((key, word))


def cases_of(name):
    """The cases of that file of the folder, without those of long texts."""
    reading = Reading({path.name: path.read_bytes() for path in sorted(DATA.glob("*.tech"))})
    for line in (DATA / name).read_bytes().split(b"\n"):
        reading.read(line)
    reading.finish()
    return [case for case in reading.cases if not case.is_long]


def case_of(file, name):
    """The case of that name."""
    return next(case for case in cases_of(file) if case.name == name)


def all_cases():
    """The cases of each file of the folder, by the file's name."""
    names = [path.name for path in sorted(DATA.glob("*.cases")) if path.name != "malformed.cases"]
    return {name: cases_of(name) for name in names}
