"""What headline.py reads: files with their definitions, the sums of these, what their names stand for, and premises."""
import functools
import hashlib
import os
import re

WORD = re.compile(r"[^\W\d][\w']*(?:\.[^\W\d][\w']*)*")
USE = re.compile(r"\buse\s+Rattle\.([\w.]+?)(?:\.\{([^}]*)\})?(?:\s+as\s+([\w']+))?\s*;?\s*$", re.M)
RUST_USE = re.compile(r"^(?:pub )?use ([\w:]+?)(?:::\{([^}]*)\}|::(\w+))(?: as (\w+))?;", re.M)
HEADER = re.compile(r"((?:(?:abbrev|unfoldable|pub|record|data)\s+)+)([^\s:({]+)")
PLAIN = re.compile(r"([^\W\d][\w']*)\s*:")
ITEM = re.compile(
    r"(?:pub(?:\(crate\))? )?(?:struct|enum|type|fn|const|trait) (\w+)|(impl)(?:<.*?>)? (Model for \w+)"
)
GUARD = re.compile(r"\b(?:If|On)(?:Ok|Err|Some) [\w.]+")
BINDER = re.compile(r"[\w' ]+ : ")
NUMBERED = re.compile(r"[\w']+ : ℕ → ")  # a field that has one thing for each number

kept = {}  # the texts that were read, by their paths


def text_at(path):
    """The text of a file, or none where there is no such file."""
    if path not in kept:
        if not os.path.exists(path):
            return None
        with open(path, encoding="utf-8") as file:
            kept[path] = file.read()
    return kept[path]


def plain(lines, path):
    """The lines without comments, white space made one blank."""
    comment = r"(?:^|\s)--.*" if path.endswith(".antt") else r"//.*"
    return " ".join(" ".join(re.sub(comment, "", line) for line in lines).split())


class Source:
    """A file: its definitions by name, as lines, and the names that it takes from others."""

    def __init__(self, path):
        self.path = path
        text = text_at(path)
        self.lines = text.split("\n")
        self.definitions = {}
        self.around = {}  # of a definition, the heads of the modules that it stands in
        self.parts = {}  # of a constructor, whose it is
        self.names = {}  # an imported name: the file and the definition; without a definition it stands for the file
        self.origins = {}  # an imported name: all that it stands for, as it is written
        if path.endswith(".antt"):
            self.read_definitions()
        else:
            self.read_items()
        self.read_imports(text)
        self.libraries = {module.split(".")[0] for module, _, _ in USE.findall(text)} - {"std"}

    def read_definitions(self):
        """Definitions begin at the margin, or two places further within each `module`; comments above are theirs."""
        margin, current, above, modules = 0, None, [], []
        for line in self.lines:
            text = line.strip()
            indent = len(line) - len(line.lstrip())
            if not text:
                above = []
            elif indent > margin and not (text.startswith("--") and current is None):
                if current:
                    self.definitions[current] += above + [line]
                    if PLAIN.match(text):
                        self.parts.setdefault(PLAIN.match(text).group(1), current)
                elif modules and not modules[-1][-1].endswith("where"):
                    modules[-1].append(text)
                above = []
            elif text.startswith("--"):
                above.append(line)
            elif text.startswith("module "):
                margin, current, above = indent + 2, None, []
                modules = modules[: indent // 2] + [[text]]
            elif text.startswith("use ") or text.startswith("pub mod ") or text.startswith("infix"):
                margin, current, above = 0, None, []
            else:
                margin, modules = indent, modules[: indent // 2]
                header = HEADER.match(text)
                name = header.group(2) if header else WORD.match(text) and WORD.match(text).group(0)
                if header or (name != current and PLAIN.match(text)):
                    current = name
                    self.definitions[current] = []
                    self.around[current] = [it for module in modules for it in module]
                if current:
                    self.definitions[current] += above + [line]
                above = []

    def read_items(self):
        """Structures, enumerations, functions, traits and views of a program's file, up to the brace at their end."""
        at = 0
        while at < len(self.lines):
            found = ITEM.match(self.lines[at])
            if not found:
                at += 1
                continue
            name = found.group(1) or "impl " + found.group(3)
            first = first_line = at
            while first > 0 and re.match(r"///|#\[", self.lines[first - 1]):
                first -= 1
            while not re.match(r"\{?\}", self.lines[at]) and not re.search(r"[;}]$", self.lines[first_line]):
                at += 1
            self.definitions[name] = self.lines[first : at + 1]
            at += 1

    def read_imports(self, text):
        """What `use` says, for definitions and in a program."""
        for module, names, alias in USE.findall(text):
            # (what a derived instance says is made of its type)
            is_made = module.startswith("std.") or ".specs.contracts." in module
            file, item = (None, None) if is_made else file_of(module)
            if alias or not names:
                given = alias or module.split(".")[-1]
                self.add_origin(given, module)
                if alias and file:
                    self.names[alias] = (file, item)
            for name in filter(None, (n.strip() for n in names.split(","))):
                given = name.split(" as ")[-1].strip().split(".")[-1]
                self.add_origin(given, module + "." + name.split(" as ")[0].strip())
                if file:
                    self.names[given] = (file, item or name.split(" as ")[0].split(".")[0].strip())
        for module, names, one, alias in RUST_USE.findall(text):
            for name in filter(None, (n.strip() for n in (names or one).split(","))):
                given = alias or name.split(" as ")[-1].strip()
                self.add_origin(given, "%s::%s" % (module, name.split(" as ")[0].strip()))

    def add_origin(self, name, origin):
        self.origins.setdefault(name, set()).add(origin)

    def statement(self, name):
        """A definition on one line, with the heads of its modules; of a function what stands before its body."""
        lines = self.definitions[name]
        if self.is_function(name):
            lines = self.contract(name)
        return plain(self.around.get(name, []) + lines, self.path)

    def is_function(self, name):
        return self.path.endswith(".rt") and any("fn %s" % name in line for line in self.definitions[name])

    def contract(self, name):
        """What stands before a function's body."""
        lines = []
        for line in self.definitions[name]:
            if line == "{":
                return lines
            lines.append(line)
            if re.match(r"pub|fn|\)", line) and re.search(r" \{\}?$|;$", line):
                return lines
        return lines

    def requires(self, name):
        """What a function requires, word for word."""
        text = plain(self.contract(name), self.path)
        return re.findall(r"\brequires (.*?\})(?= requires | ensures |$)", text)

    def clause(self, name, clause):
        """The lines of a clause that a function ensures, or none."""
        text = "\n".join(self.contract(name))
        found = re.search(r"^\s*ensures %s \{(.*?)\}(?=\s*(?:ensures|requires)\b|\s*\Z)" % clause, text, re.M | re.S)
        return found and found.group(1).split("\n")

    def used(self, text):
        """Which imported names a text has, and what they stand for."""
        words = {word.split(".")[0] for word in WORD.findall(text)}
        for name, origins in sorted(self.origins.items()):
            pieces = [piece for piece in name.split("◌") if piece]
            if name in words if WORD.fullmatch(name) else all(piece in text for piece in pieces):
                yield "%s is %s" % (name, " and ".join(sorted(origins)))

    @functools.lru_cache(maxsize=None)
    def said(self, name):
        """What a definition says, and what the names in it stand for."""
        text = self.statement(name)
        return [name, text, *self.used(text)]

    def sum_of(self, names):
        """The first 12 digits of the SHA-256 of what these definitions say, and of what their names stand for."""
        said = [it for name in sorted(names) for it in self.said(name)]
        return hashlib.sha256("\n".join(said).encode()).hexdigest()[:12]

    def bodies(self, name):
        """The fields of a record, or what each equation of a definition says, without comments."""
        first, *lines = [line for line in self.definitions[name] if plain([line], self.path)]
        indent = len(first) - len(first.lstrip())
        is_record = re.match(r"\s*(?:pub )?record\b", first)
        begins = re.compile(r" {%d}(?:pub )?[\w']+ :" % (indent + 2) if is_record else r" {%d}\S" % indent)
        pieces = []
        for line in lines:
            if begins.match(line):
                pieces.append([line])
            elif pieces:
                pieces[-1].append(line)
        texts = [plain(piece, self.path) for piece in pieces]
        return [re.sub(r"^pub ", "", it) if is_record else it.partition("= ")[2] for it in texts]

    def premises(self, name):
        """The premises in a definition, word for word."""
        return [it for body in self.bodies(name) for it in premises_in(body)]


def file_of(module):
    """The file of a module's name, and the item where the name goes on to one."""
    parts = module.split(".")
    crate, rest = parts[0], parts[1:]
    if rest[:2] == ["specs", "declared"]:
        if rest[-1] == "TheConstants":
            return "crates/%s/src/%s.rt" % (crate, "/".join(rest[2:-1])), None
        rest = [p for p in rest[2:] if p != "TheVariants"]
        return "crates/%s/src/%s.rt" % (crate, "/".join(rest[:-1])), rest[-1]
    return "crates/%s/%s.antt" % (crate, "/".join(rest)), None


def premises_in(text):
    """What stands before arrows, and which answers a clause speaks of, in order; not what types of variables have."""
    pieces, groups, outside, depth, at, begun = [], [], "", 0, 0, 0
    for place, sign in enumerate(text):
        depth -= sign in ")}"
        if depth == 0 and sign in "({":
            begun = place + 1
        elif depth == 0 and sign in ")}":
            groups.append(text[begun:place])
        elif depth == 0 and sign == "→":
            pieces.append(text[at:place])
            at = place + 1
        elif depth == 0:
            outside += sign
        depth += sign in "({"
    found = GUARD.findall(outside)
    if pieces and not NUMBERED.match(text):
        found.append(" ".join(re.sub(r"^\s*λ [^.]*\. ", "", "→".join(pieces)).split()) + " →")
    for group in groups:
        if not BINDER.match(group):
            found += premises_in(group)
    return found
