#!/usr/bin/env python3
"""Checks docs/HEADLINE.md: python3 bench/headline.py [--write | --lines | --self-test]

The document names functions with the clauses of their contracts that carry the headline, and in its tables files with
the definitions that have to be read. Checked is that
- each function, clause, file, definition and field is there,
- each definition that one of these names is in a row too, or in one of those of what may be left unread,
- nothing is in a row that none of these names,
- each row has the sum of what its definitions or its whole contract say, and of what the names in it stand for,
- what a function requires, and the premises of clauses and definitions, stand there word for word,
- a part has at most as many lines as the document says, and each library that the claims rest on is named.
--write puts sums, `requires` and premises there as they are now, --lines prints the lines of each row, and --self-test
changes sources in memory, one at a time, and says whether each change is noticed. Where something is wrong, that is
printed, and the status is 1.
"""
import functools
import glob
import heapq
import os
import re
import sys

sys.dont_write_bytecode = True
import headline_source as sources

os.chdir(os.path.join(os.path.dirname(os.path.abspath(__file__)), ".."))

DOCUMENT = "docs/HEADLINE.md"
UNREAD = "What may be left unread"
CONTRACTS = "The contracts"
PREMISES = "Premises, word for word"
TRUSTED = "What is trusted beside these definitions"
STANDARD = {"Vec", "Box", "String", "Option", "Result", "Global", "F", "AllocError", "IndexSet"}
ROW = re.compile(r"\|(?: *\d* *\|)? `(\w+/[\w/]+\.(?:antt|rt))` \| ([^|]*) \|")
COMMENT, ASIDE = re.compile(r"(--|//).*"), re.compile(r"(--|//|#\[).*")
WRITE = "read what it says now, and then run bench/headline.py --write"


class Page:
    """The document with its rows, and what is wrong with it."""

    def __init__(self, files=None):
        """With files that were read before, by their paths."""
        self.text = sources.text_at(DOCUMENT)
        pieces = re.split(r"^## (.*)$", self.text, flags=re.M)
        self.sections = dict(zip(["", *pieces[1::2]], pieces[0::2]))
        self.files, self.wrong = files or {}, []
        self.contracts = {}  # of a function, its file and the clauses that carry the headline
        self.read, self.unread = {}, {}  # the definitions of all rows, by file and name, and the row's names
        self.counts = []

    def tell(self, text):
        if text not in self.wrong:
            self.wrong.append(text)

    def file(self, path):
        """A file, or none where it isn't there."""
        if path not in self.files:
            self.files[path] = sources.Source(path) if sources.text_at(path) is not None else None
        return self.files[path]

    def lines_of(self, path, name):
        return self.file(path).definitions[name]

    def names_in(self, path, cell):
        """The definitions of a file that a row's cell names."""
        file = self.file(path)
        if not file:
            self.tell("%s isn't there" % path)
            return []
        names = re.findall(r"`([^`]+)`", cell)
        for name in names:
            if name not in file.definitions:
                self.tell("%s has no definition %s" % (path, name))
        if cell.startswith("all"):
            names = [n for n in file.definitions if n not in names]
        return [n for n in names if n in file.definitions]

    def read_rows(self):
        """Reads the rows of all tables of definitions, and counts their lines."""
        for title, text in self.sections.items():
            if title == CONTRACTS:
                continue
            sum_of, code_of = 0, 0
            for path, cell in ROW.findall(text):
                path = "crates/" + path
                names = self.names_in(path, cell)
                if title == UNREAD:
                    self.unread.update({(path, name): cell for name in names})
                    continue
                lines = [line for n in names for line in self.lines_of(path, n)]
                self.counts.append("%6d %6d  %s: %s" % (len(lines), len(code(lines)), path, ", ".join(names)))
                sum_of, code_of = sum_of + len(lines), code_of + len(code(lines))
                for name in names:
                    if (path, name) in self.read:
                        self.tell("%s of %s is in two rows" % (name, path))
                    self.read[path, name] = cell
            if sum_of:
                self.counts.append("%6d %6d  %s" % (sum_of, code_of, title))
                self.check_most(title, text, sum_of)

    def check_most(self, title, text, lines):
        most = re.search(r"[Aa]t\s+most\s+([\d,]+)\s+lines", text)
        if not most or lines > int(most.group(1).replace(",", "")):
            self.tell("%s has %d lines, more than it says" % (title, lines))

    def read_contracts(self):
        """Reads the table of contracts, and holds it against the sentences about their clauses."""
        for row in re.findall(r"^\|.*", self.sections[CONTRACTS], re.M):
            found = ROW.match(row)
            if not found:
                continue
            path, function = "crates/" + found.group(1), found.group(2).strip("` ")
            if not self.file(path) or function not in self.file(path).definitions:
                self.tell("%s has no function %s" % (path, function))
            else:
                self.contracts[function] = path, re.findall(r"`(\w+)`", cells_of(row)[2])
        said = re.findall(r"`\w+::(\w+)`\s+\(`(crates/[^`]+)`\),\s+clause\s+`(\w+)`", self.text)
        listed = [(it, path, clause) for it, (path, clauses) in self.contracts.items() for clause in clauses]
        for function, path, clause in sorted({*said} ^ {*listed}):
            place = "the sentences" if (function, path, clause) in said else "the table of contracts"
            self.tell("clause %s of %s (%s) is in %s alone" % (clause, function, path, place))

    def roots(self):
        """What the clauses name, and the types of their functions."""
        found, kinds = set(), set()
        for function, (path, clauses) in self.contracts.items():
            for clause in clauses:
                lines = self.file(path).clause(function, clause)
                if lines is None:
                    self.tell("%s of %s has no clause %s" % (function, path, clause))
                    continue
                found |= {(it, "the clause %s of %s" % (clause, function)) for it in self.needed(path, lines)}
            if clauses:
                kinds |= signature_of(self.file(path), function)
        return found, kinds

    def needed(self, path, lines):
        """The definitions that these lines of a file name, as files and names."""
        found, file = set(), self.file(path)
        for word in words_in("\n".join(lines)):
            first, *rest = word.split(".")
            if first in file.names:
                from_path, item = file.names[first]
                item = item or (rest[0] if rest else None)
                other = self.file(from_path)
                if item and other:
                    found.add((from_path, item if item in other.definitions else other.parts.get(item, item)))
                elif item and os.path.isdir("/".join(from_path.split("/")[:2])):
                    self.tell("%s isn't there, and %s names %s of it" % (from_path, path, item))
            elif path.endswith(".antt") and first in file.definitions:
                found.add((path, first))
            elif path.endswith(".antt") and first in file.parts and first[0].isupper():
                found.add((path, file.parts[first]))
        return found

    def check_needed(self):
        """Goes from definition to definition: all that one names is read, and each that is read is named."""
        ahead, kinds = self.roots()
        views = {it for it in self.read if it[1].startswith("impl ")}
        laws = {it for it in self.read if it[0].endswith(".rt") and self.has(it, "fn %s\\(")}
        known = {name.split()[-1] for path, name in self.read if path.endswith(".rt")} | STANDARD
        for kind in sorted(kinds - known - {name for path, name in self.unread}):
            self.tell("%s is in no row, and the functions speak of it" % kind)
        for kind in sorted((known | kinds) & viewed() - {name.split()[-1] for path, name in views}):
            self.tell("the view of %s is in no row" % kind)
        # A view or a law is named by no definition; it stands for those of its type, or of what it is about.
        ahead = sorted(ahead | {(it, DOCUMENT) for it in self.read if it in views | laws or it[1] in kinds})
        reached = set()
        while ahead:
            it, by = heapq.heappop(ahead)
            if it in reached:
                continue
            reached.add(it)
            if it in self.unread:
                continue
            if it not in self.read:
                self.tell("%s of %s is in no row, and %s names it" % (it[1], it[0], by))
            for other in self.named_by(it, known, it in laws) - reached:
                heapq.heappush(ahead, (other, "%s of %s" % (it[1], it[0])))
        for path, name in sorted({*self.read, *self.unread} - reached):
            if name not in kinds:
                self.tell("%s of %s is in a row, and nothing names it" % (name, path))

    def named_by(self, it, known, is_law):
        """What a definition names: of a view what it gives, of a trait its members without functions."""
        path, name = it
        lines = self.file(path).definitions.get(name, [])
        if name.startswith("impl ") or path.endswith(".rt") and self.has(it, "trait %s\\b"):
            members = r"\s*ghost (Value|view)\b" if name.startswith("impl ") else r"\s*ghost (?!use\b)"
            return self.needed(path, [line for line in lines if re.match(members, line)])
        found = self.needed(path, lines)
        if path.endswith(".rt") and not is_law:
            for kind in kinds_in(code(lines)[1:]):
                if kind not in known:
                    self.tell("%s of %s has a %s, of which no row says what it is" % (name, path, kind))
                found |= {other for other in self.read if other[1] == kind}
        return found

    def has(self, it, pattern):
        path, name = it
        return re.search(pattern % re.escape(name), "\n".join(self.file(path).definitions.get(name, [])))

    def check_fields(self):
        """Each field that the table of pieces names is one of `EndsRun`, or of a record that is one of its fields."""
        for fields in re.findall(r"`([a-z_.]+)`", "\n".join(re.findall(r"^\|.*", self.sections[""], re.M))):
            record = "EndsRun"
            for field in fields.split("."):
                texts = ["\n".join(self.lines_of(*it)) for it in self.read if it[1] == record]
                found = re.search(r"^ *pub %s : \W*(\w+)" % field, "\n".join(texts), re.M)
                if not found:
                    self.tell("%s has no field %s, of %s" % (record, field, fields))
                    break
                record = found.group(1)

    def check_trusted(self):
        """Each library that is no crate here, and that a crate with one of the contracts stands on, is named."""
        below, ahead, uses = set(), {path.split("/")[1] for path, _ in self.contracts.values()}, {}
        for line in sources.text_at("crates.txt").split("\n"):
            name, _, words = line.partition(":")
            uses[name] = words.split()
        while ahead:
            name = ahead.pop()
            below.add(name)
            ahead |= {*uses.get(name, [])} - below
        for path in {path for path, _ in self.read}:
            below |= self.file(path).libraries
        named = set(re.findall(r"`(\w+)`", self.sections[TRUSTED]))
        for name in sorted(below - named):
            if not os.path.isdir("crates/" + name):
                self.tell("the library %s isn't named under \"%s\"" % (name, TRUSTED))

    def renewed(self):
        """The document with sums, `requires` and premises as they are now; what differs is told."""
        title, out = "", []
        for line in self.text.split("\n"):
            title = line[3:] if line.startswith("## ") else title
            found = ROW.match(line)
            if title == PREMISES and line.startswith("| `"):
                new = self.premises_row(line)
            elif title == CONTRACTS and found:
                new = self.contract_row(line, "crates/" + found.group(1), found.group(2).strip("` "))
            elif found:
                names = self.names_in("crates/" + found.group(1), found.group(2))
                new = with_sum(line, self.file("crates/" + found.group(1)).sum_of(names)) if names else line
            else:
                new = line
            if new != line:
                self.tell_change(line, new)
            out.append(new)
        return "\n".join(out)

    def tell_change(self, line, new):
        """Names a row that says something else now, and of it the cells that differ."""
        cells, now = cells_of(line), cells_of(new)
        name = ", ".join(it for it in cells[:3] if "`" in it)
        said = "; ".join("%s, and not %s" % (b, a or "empty") for a, b in zip(cells, now) if a != b)
        self.tell("the row %s has changed, and has now %s: %s" % (name, said, WRITE))

    def contract_row(self, line, path, function):
        """With what the function requires, and the sum of its whole contract."""
        if function not in self.contracts:
            return line
        cells = cells_of(line)
        cells[2] = cells[2] or "none"
        cells[3] = "; ".join("`%s`" % it for it in self.file(path).requires(function)) or "none"
        return with_sum("| %s |" % " | ".join(cells), self.file(path).sum_of([function]))

    def premises_row(self, line):
        """With the premises of a clause, or of a definition that is in some other row."""
        cell = line.split("|")[1]
        name, *clause = re.findall(r"`(\w+)`", cell)
        paths = [path for path, it in self.read if it == name]
        if clause:
            path = self.contracts.get(name, (None, []))[0]
            lines = path and self.file(path).clause(name, clause[0])
            found = lines and sources.premises_in(" ".join(" ".join(lines).split()))
        else:
            found = self.file(paths[0]).premises(name) if len(paths) == 1 else None
        if found is None:
            self.tell('the row%sunder "%s" is of nothing that is in another row' % (cell, PREMISES))
            return line
        return "|%s| %s |" % (cell, "; ".join("`%s`" % it for it in found) or "none")

    def check_premises(self):
        """Each clause that carries the headline has a row with its premises."""
        text = self.sections[PREMISES]
        for function, (_, clauses) in self.contracts.items():
            for clause in clauses:
                if "| `%s`, clause `%s` |" % (function, clause) not in text:
                    self.tell('clause %s of %s has no row under "%s"' % (clause, function, PREMISES))

    def check(self):
        """Looks at all of it, and returns the document as it should be."""
        self.read_contracts()
        self.read_rows()
        self.check_fields()
        self.check_needed()
        self.check_trusted()
        self.check_premises()
        return self.renewed()


def code(lines):
    """What isn't a comment, an attribute or blank."""
    return [COMMENT.sub("", line) for line in lines if ASIDE.sub("", line).strip()]


def cells_of(row):
    return [cell.strip() for cell in row[1:-1].split("|")]


def with_sum(line, digits):
    """A row whose last cell is the sum."""
    return re.sub(r"\| *(?:`[0-9a-f]*`)? *\|$", lambda _: "| `%s` |" % digits, line)


def kinds_in(lines):
    """The types of fields."""
    return re.findall(r"(?:: |[(<,] ?)&?(?:'\w+ )?\[?([A-Z]\w+)", "\n".join(lines))


def signature_of(file, function):
    """The types of a function's parameters and answer, and the traits that its parameters have."""
    text = re.split(r"\bwhere\b|\bensures\b|\brequires\b", "\n".join(code(file.contract(function))))[0]
    return set(re.findall(r"[A-Z]\w+", text[text.index(function) :]))


def viewed():
    """The types whose values are what a view says, wherever they are."""
    return {kind for path in programs() for kind in views_in(sources.text_at(path))}


@functools.lru_cache(maxsize=None)
def programs():
    return glob.glob("crates/*/src/**/*.rt", recursive=True)


@functools.lru_cache(maxsize=None)
def views_in(text):
    return {*re.findall(r"^impl(?:<.*?>)? Model for (\w+)", text, re.M)} if " Model for " in text else set()


@functools.lru_cache(maxsize=None)
def words_in(text):
    """The names in a text, without its comments."""
    return sources.WORD.findall("\n".join(code(text.split("\n"))))


def main(words):
    if words == ["--self-test"]:
        import headline_tries

        return headline_tries.main(Page)
    page = Page()
    new = page.check()
    if "--write" in words:
        page.wrong = [it for it in page.wrong if WRITE not in it]
        with open(DOCUMENT, "w", encoding="utf-8") as file:
            file.write(new)
    if "--lines" in words:
        print("\n".join(["lines   code", *page.counts]))
    for text in page.wrong:
        print("%s: %s" % (DOCUMENT, text), file=sys.stderr)
    return 1 if page.wrong else 0


if __name__ == "__main__":
    sys.exit(main(sys.argv[1:]))
