#!/usr/bin/env python3
"""Tells which definitions that public contracts cite have no row in docs/DEFINITIONS.md.

    bench/definitions.py [--inside]

A definition stands in the specs of a crate: an `abbrev`, a `record` or a `data`. It is cited where a `requires` or an `ensures` of a `pub fn` of a crate that
is no test crate has its name, which a `ghost use` brings in, maybe under another name. A row has it where its first column names it in backticks, and its last
one leads to its file: with a crate's folder, or by the crate of the file before it there, or by those that the words above the table name.

It prints the definitions without a row, crate by crate, of those that a call of another crate meets, since the crate hands the function or its type on with a
`pub use` or `pub mod` of `lib.rt`; with `--inside` also of those that are cited by functions of its private modules alone. Then it prints the words of rows that are
defined nowhere, those that are defined in none of the row's files, and files of rows that are not there. Its status is 1 if it printed any.
"""
import re
import sys
from collections import defaultdict
from pathlib import Path

TOP = Path(__file__).resolve().parent.parent
CRATES = TOP / "crates"
PAGE = TOP / "docs/DEFINITIONS.md"
NAME = r"[A-Za-z_][A-Za-z0-9_']*"
DEFINED = re.compile(rf"\s*(?:unfoldable )?(?:abbrev pub|pub record|pub data|unfoldable pub) ({NAME})")
IN_MUTUAL = re.compile(rf"  (?:unfoldable )?pub ({NAME})")
IMPORT = re.compile(r"^\s*(?:ghost |pub )?use Rattle\.(\w+)\.specs\.(\w+(?:\.\w+)*)\.\{([^}]*)\}", re.M)
MODULE = re.compile(r"^\s*pub use Rattle\.(\w+)\.specs((?:\.\w+)*) as (\w+)", re.M)
DECLARED = re.compile(rf"^\s*pub(?:\([\w: ]+\))? (?:unsafe )?(?:struct|enum|trait|const|static|type) ({NAME})", re.M)
HANDED = re.compile(r"^pub use ([^;]+);", re.M)
OPEN = re.compile(r"^pub mod (\w+);", re.M)
PUBLIC = re.compile(rf"\s*pub (?:const |unsafe )*fn ({NAME})")
OWNER = re.compile(rf"(?:unsafe )?impl(?:<[^{{]*?>)? (?:.* for )?({NAME})")
CLAUSE = re.compile(r"\s*(?:requires|ensures)\b")


def public_crates():
    return [crate for crate in sorted(CRATES.iterdir()) if (crate / "src").is_dir() and not crate.name.endswith("_tests")]


def sources(crate):
    """The text of each source of a crate, without its comments."""
    for file in sorted((crate / "src").rglob("*.rt")):
        yield file.name, re.sub(r"//[^\n]*", "", file.read_text())


def defined_in(text):
    """The names that a file of specs defines. Those of a mutual block are indented once."""
    is_mutual = False
    for line in text.splitlines():
        if line and not line.startswith(" "):
            is_mutual = line.startswith("abbrev mutual")
        found = DEFINED.match(line) or is_mutual and IN_MUTUAL.match(line)
        if found:
            yield found[1]


def imports(text):
    """What the uses of a file bring in: each name with the file that it is of and the name that it has there."""
    names = {}
    for crate, module, listed in IMPORT.findall(text):
        for entry in filter(None, map(str.strip, listed.split(","))):
            name, _, alias = entry.partition(" as ")
            names[(alias or name).strip()] = f"{crate}/specs/{module.replace('.', '/')}.antt", name.strip()
    return names


class Specs:
    """The files of specs of all crates, with the names that each defines, and those that it brings in; and the modules that a crate has of others."""

    def __init__(self):
        self.defined, self.brought, self.modules, self.files_of = {}, {}, {}, defaultdict(set)
        for file in sorted(CRATES.glob("*/specs/**/*.antt")):
            place, text = file.relative_to(CRATES).as_posix(), file.read_text()
            self.defined[place], self.brought[place] = set(defined_in(text)), imports(text)
            for name in self.defined[place]:
                self.files_of[name].add(place)
            for crate, path, alias in MODULE.findall(text):
                self.modules[f"{place.split('/')[0]}/specs/{alias}"] = f"{crate}/specs{path.replace('.', '/')}"

    def origin(self, place, name):
        """Where the name of a file is defined: there, or where the file has it from. None for what no file of these defines."""
        if name in self.defined.get(place, ()):
            return place, name
        crate, specs, module, *inner = place.removesuffix(".antt").split("/")
        if f"{crate}/{specs}/{module}" in self.modules:
            return self.origin("/".join([self.modules[f"{crate}/{specs}/{module}"], *inner]) + ".antt", name)
        further = self.brought.get(place, {}).get(name)
        return self.origin(*further) if further else None


def told_below(lines, number):
    """The clauses of the function on this line: what stands between its signature and the line that opens its body."""
    indent = len(lines[number]) - len(lines[number].lstrip())
    told, is_clause = [], False
    for line in lines[number + 1:]:
        is_outer = line.strip() and len(line) - len(line.lstrip()) <= indent
        if is_outer and (line.strip()[0] in "{}" or line.endswith(("{", ";"))):
            break
        is_clause = is_clause or bool(CLAUSE.match(line))
        if is_clause:
            told.append(line)
    return "\n".join(told)


def calls(text):
    """The public functions of a source: what of it another crate has to be handed for a call, the function or its type, and the clauses."""
    lines, owner = text.splitlines(), None
    for number, line in enumerate(lines):
        if line.strip() and not line.startswith(" "):
            found = OWNER.match(line)
            owner = found[1] if found else None
        function = PUBLIC.match(line)
        if function and not line.endswith("{"):
            yield owner or function[1], told_below(lines, number)


def handed_on(texts):
    """The names that the top of a crate hands on, itself, and the files of its open modules."""
    top = "".join(text for file, text in texts if file == "lib.rt")
    return {name for uses in HANDED.findall(top) for name in re.findall(NAME, uses)} | {f"{module}.rt" for module in OPEN.findall(top)} | {"lib.rt"}


def cited(specs):
    """The definitions that clauses of public functions cite, by file and name: those that a call meets, and all."""
    met, found = set(), set()
    for crate in public_crates():
        texts = list(sources(crate))
        handed = handed_on(texts)
        for file, text in texts:
            names = imports(text)
            for of, told in calls(text):
                words = set(re.findall(rf"(?<![.\w'])({NAME})", told)) & names.keys()
                places = {specs.origin(*names[word]) for word in words} - {None}
                found |= places
                if handed & {of, file}:
                    met |= places
    return met, found


class Row:
    """A row of the page: its number, its words, and for each file that it names those that may be meant."""

    def __init__(self, number, words, named):
        self.number, self.words, self.named = number, words, named
        self.files = {file for files in named.values() for file in files}


def rows():
    """The rows of the tables of definitions. A paragraph or a heading above a table tells the crates of the files without a folder."""
    crates, columns, is_below = [], [""], False
    for number, line in enumerate(PAGE.read_text().splitlines(), 1):
        if line.startswith("|"):
            cells, is_below = [cell.strip() for cell in line.strip("|").split("|")], True
            if cells[0] == "Word":
                columns = cells
            elif columns[-1] == "File" and not cells[0].startswith("-"):
                yield Row(number, words_of(cells[0]), files_of(cells[-1], crates))
            continue
        named = re.findall(r"`(\w+)/specs`", line)
        if line.startswith("#") or named and is_below:
            crates, is_below = [], False
        crates = crates + named


def words_of(cell):
    """The words in backticks; what stands behind a word there are its arguments."""
    return [word.split()[0] for word in re.findall(r"`([^`]+)`", cell)]


def files_of(cell, crates):
    """The files that a row names. One without a folder is of the crate of the file before it, or else of one of those above the table."""
    files = {}
    for name in re.findall(r"`([\w/]+\.antt)`", cell):
        crates = [name.split("/")[0]] if "/" in name.removeprefix("steps/") else crates
        files[name] = [f"{crate}/specs/{name.split('specs/')[-1]}" for crate in crates]
    return files


def declared():
    """The types and constants of the sources, which rows may tell as well."""
    return {name for crate in public_crates() for _, text in sources(crate) for name in DECLARED.findall(text)}


def wrong_rows(specs, page):
    """What is wrong with rows, each in a line."""
    known = declared()
    for row in page:
        for word in row.words:
            places = specs.files_of[word]
            if not places and word not in known:
                yield f"line {row.number}: {word} is defined nowhere"
            elif places and not row.files & places:
                yield f"line {row.number}: {word} is defined in {', '.join(sorted(places))}"
        for name, files in row.named.items():
            if not any(file in specs.defined for file in files):
                yield f"line {row.number}: there is no {name}"


def print_by_crate(title, places):
    by_file = defaultdict(list)
    for place, name in sorted(places):
        by_file[place].append(name)
    for crate in sorted({place.split("/")[0] for place in by_file}):
        print(f"{crate}, {title}:")
        for place, names in by_file.items():
            if place.startswith(f"{crate}/"):
                print(f"    {place.split('specs/')[-1]}: {', '.join(names)}")


def main(words):
    specs = Specs()
    met, found = cited(specs)
    if "--inside" not in words:
        found = met
    page = list(rows())
    told = {(file, word) for row in page for word in row.words for file in row.files}
    missing, wrong = found - told, list(wrong_rows(specs, page))
    print_by_crate("no row", missing & met)
    print_by_crate("no row, inside the crate alone", missing - met)
    for line in wrong:
        print(line)
    print(f"{len(found)} definitions are cited, {len(missing)} without a row; {len(wrong)} faults of rows")
    return 1 if missing or wrong else 0


if __name__ == "__main__":
    sys.exit(main(sys.argv[1:]))
