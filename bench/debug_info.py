#!/usr/bin/env python3
"""debug_info.py [FOLDER] [--cases]: holds what is read of debug information against `llvm-dwarfdump`.

Compiles the programs of bench/debug by each clang that is there (clang, clang-16, clang-19), without optimization and with, as DWARF 4 and
5. Of what llvm-dwarfdump prints of each module it works out, in its own way, what each byte of static data is called, where these words lead
back to, which functions were put in the place of their calls at each offset of the code, and which variables are in scope there and where
they are; and writes that as cases into FOLDER (/tmp/debug_info), which crates/cases then tries: `rt try` there, with no proof, or the
program that PROGRAM names. With --cases it prints, in place of that, such cases of the modules that bench/debug/build.sh made:
crates/cases/data/info.cases begins with them.
"""
import os
import re
import shutil
import subprocess
import sys

HERE = os.path.dirname(os.path.abspath(__file__))
ROOT = os.path.dirname(HERE)
BARE = ("typedef", "const_type", "volatile_type", "restrict_type", "atomic_type")
WASM = ("local", "global", "operand", "global")
QUALIFIERS = {"const_type": "const", "volatile_type": "volatile", "restrict_type": "restrict", "atomic_type": "_Atomic"}


class Entry:
    def __init__(self, offset, tag, parent):
        self.offset, self.tag, self.parent, self.attributes, self.children = offset, tag, parent, {}, []

    def get(self, name):
        return self.attributes.get(name)


def run(*words):
    return subprocess.run(words, check=True, capture_output=True, text=True).stdout


def read_entries(text):
    """The entries of all units by their offsets, in order, from what llvm-dwarfdump prints."""
    entries, stack, last = {}, [], None
    for line in text.splitlines():
        found = re.match(r"0x([0-9a-f]+):( +)(?:DW_TAG_(\w+)|NULL)", line)
        if found:
            last = None
            depth = (len(found[2]) - 1) // 2
            del stack[depth:]
            if found[3]:
                entry = Entry(int(found[1], 16), found[3], stack[-1] if stack else None)
                if stack:
                    stack[-1].children.append(entry)
                stack.append(entry)
                entries[entry.offset] = entry
            continue
        found = re.match(r"\s+DW_AT_(\w+)\t\((.*)$", line)
        if found and stack:
            last = found[1]
            stack[-1].attributes.setdefault(last, found[2])
        elif last and line.strip() and stack:
            stack[-1].attributes[last] += "\n" + line.strip()
        else:
            last = None
    return entries


def read_addresses(module, dumper):
    """The addresses of each table of .debug_addr, by the offset of its first."""
    tables, base, at = {}, None, 0
    for line in run(dumper, "--debug-addr", module).splitlines():
        found = re.match(r"Address table header: length = (0x[0-9a-f]+)", line)
        if found:
            base, at = at + 8, at + 4 + int(found[1], 16)
            tables[base] = []
        elif base is not None and re.match(r"^0x[0-9a-f]+$", line.strip()):
            tables[base].append(int(line, 16))
    return tables


class Debug:
    def __init__(self, module, dumper):
        self.entries = read_entries(run(dumper, "--debug-info", module))
        self.tables = read_addresses(module, dumper)
        self.files = set(re.findall(r'^ +name: "(.*)"$', run(dumper, "--debug-line", module), re.M))

    def root(self, entry):
        while entry.parent:
            entry = entry.parent
        return entry

    def reference(self, entry, name):
        found = re.match(r"0x([0-9a-f]+)", entry.get(name) or "")
        return self.entries.get(int(found[1], 16)) if found else None

    def origin(self, entry):
        return self.reference(entry, "abstract_origin") or self.reference(entry, "specification")

    def source(self, entry, name):
        while entry and entry.get(name) is None:
            entry = self.origin(entry)
        return entry

    def name(self, entry):
        entry = self.source(entry, "name")
        return entry and re.match(r'"(.*)"\)$', entry.get("name"))[1]

    def type(self, entry):
        entry = self.source(entry, "type")
        return entry and self.reference(entry, "type")

    def number(self, entry, name):
        found = re.match(r"(0x[0-9a-f]+|-?\d+)\)", entry.get(name) or "")
        return int(found[1], 0) if found else None

    def bare(self, kind):
        while kind and kind.tag in BARE:
            kind = self.type(kind)
        return kind

    def counts(self, array):
        found = []
        for child in array.children:
            if child.tag == "subrange_type":
                count, top = self.number(child, "count"), self.number(child, "upper_bound")
                found.append(count if count is not None else None if top is None else top + 1)
        return found

    def size(self, kind):
        kind = self.bare(kind)
        if not kind:
            return None
        size = self.number(kind, "byte_size")
        if size is not None:
            return size
        if kind.tag == "pointer_type":
            return 4
        if kind.tag == "array_type":
            size = self.size(self.type(kind))
            for count in self.counts(kind):
                size = None if size is None or count is None else size * count
            return size
        return None

    def address(self, entry, text):
        """The address that an expression of one operation says."""
        found = re.fullmatch(r"DW_OP_addrx (0x[0-9a-f]+)", text)
        if found:
            base = self.number(self.root(entry), "addr_base")
            return self.tables[base][int(found[1], 16)]
        found = re.fullmatch(r"DW_OP_addr (0x[0-9a-f]+)", text)
        return int(found[1], 16) if found else None

    # ---- names of data

    def members(self, kind):
        """Of each member its entry, its first byte and how many bytes it touches."""
        for child in kind.children:
            size = self.size(self.type(child)) if child.tag == "member" else None
            if size is None:
                continue
            bits, at = self.number(child, "bit_size"), self.number(child, "data_member_location") or 0
            if bits is None:
                yield child, at, size
                continue
            first = self.number(child, "data_bit_offset")
            if first is None:
                holder = self.number(child, "byte_size") or size
                first = at * 8 + holder * 8 - self.number(child, "bit_offset") - bits
            yield child, first // 8, (first + bits + 7) // 8 - first // 8

    def call(self, kind, at, size, words, named, wanted):
        """The words of the byte at `wanted`, which is in what begins at `at` and is called `words`."""
        kind = self.bare(kind)
        if kind and kind.tag in ("structure_type", "union_type", "class_type"):
            for member, start, length in self.members(kind):
                if at + start <= wanted < at + start + length:
                    name = self.name(member)
                    inner = words + "." + name if name else words
                    return self.call(self.type(member), at + start, length, inner, at + start if name else named, wanted)
        if kind and kind.tag == "array_type":
            counts = self.counts(kind)
            for count in counts:
                if not count:
                    return self.end(words, named, wanted)
                size //= count
                index = (wanted - at) // size
                at += index * size
                words += f"[{index}]"
            return self.call(self.type(kind), at, size, words, at, wanted)
        return self.end(words, named, wanted)

    def end(self, words, named, wanted):
        return words if wanted == named else f"{words}+{wanted - named}"

    def variables(self):
        """The static variables that have an address and a size, by address: (address, size, name, type)."""
        found = []
        for entry in self.entries.values():
            if entry.tag != "variable" or not entry.get("location"):
                continue
            address = self.address(entry, entry.get("location")[:-1])
            size = self.size(self.type(entry))
            if self.name(entry) and address is not None and size and address + size < 1 << 32:
                found.append((address, size, self.name(entry), self.type(entry)))
        return sorted(found, key=lambda it: it[0])

    # ---- code

    def ranges(self, entry):
        text = entry.get("ranges")
        if text:
            return [(int(a, 16), int(b, 16)) for a, b in re.findall(r"\[(0x[0-9a-f]+), (0x[0-9a-f]+)\)", text)]
        found = re.search(r"(0x[0-9a-f]+)\)?$", (entry.get("low_pc") or "").split("\n")[0])
        if not found:
            return []
        low, high = int(found[1], 16), self.number(entry, "high_pc")
        return [] if high is None else [(low, high)]

    def functions(self):
        roots = [it for it in self.entries.values() if it.tag == "subprogram" and it.get("low_pc")]
        return [(it, self.ranges(it)) for it in roots]

    def scopes(self, function, offset):
        scopes, scope = [function], function
        while scope:
            inner = [
                it
                for it in scope.children
                if it.tag in ("lexical_block", "inlined_subroutine") and any(a <= offset < b for a, b in self.ranges(it))
            ]
            scope = inner[0] if inner else None
            scopes += inner[:1]
        return scopes

    def chain(self, function, offset):
        calls = []
        for scope in reversed(self.scopes(function, offset)):
            if scope.tag == "inlined_subroutine":
                path = re.match(r'"(.*)"\)$', scope.get("call_file"))[1]
                file = max((it for it in self.files if ("/" + path).endswith("/" + it)), key=len)
                calls.append(f"{self.name(scope)} {file}:{self.number(scope, 'call_line')}")
        return " < ".join(calls)

    def place(self, entry, offset, frame):
        text = entry.get("location")
        if not text:
            return None
        text = text.rstrip(")") if "[" not in text else text
        if "[0x" in text:
            for a, b, place in re.findall(r"\[(0x[0-9a-f]+), (0x[0-9a-f]+)\): ([^\n]*)", text):
                if int(a, 16) <= offset < int(b, 16):
                    text = place.rstrip(")")
                    break
            else:
                return None
        found = re.fullmatch(r"DW_OP_WASM_location (0x[0-9a-f]+) (0x[0-9a-f]+), DW_OP_stack_value", text)
        if found:
            return f"{WASM[int(found[1], 16)]} {int(found[2], 16)}"
        found = re.fullmatch(r"DW_OP_WASM_location (0x[0-9a-f]+) (0x[0-9a-f]+), DW_OP_plus_uconst (0x[0-9a-f]+)", text)
        if found:
            return f"at {WASM[int(found[1], 16)]} {int(found[2], 16)} + {int(found[3], 16)}"
        found = re.fullmatch(r"DW_OP_fbreg ([+-]\d+)", text)
        if found:
            return f"at {frame} + {int(found[1])}"
        address = self.address(entry, text)
        return None if address is None else f"at {address}"

    def frame(self, function):
        found = re.match(r"DW_OP_WASM_location (0x[0-9a-f]+) (0x[0-9a-f]+), DW_OP_stack_value", function.get("frame_base") or "")
        return found and f"{WASM[int(found[1], 16)]} {int(found[2], 16)}"

    def words(self, kind):
        """A type as C writes it, worked out from the inside out by recursion."""

        def declare(kind, inner):
            if not kind:
                return "void", inner
            if kind.tag == "pointer_type":
                return declare(self.type(kind), "*" + inner)
            if kind.tag in QUALIFIERS:
                word, under = QUALIFIERS[kind.tag], self.type(kind)
                if under and under.tag == "pointer_type":
                    return declare(self.type(under), "*" + word + inner)
                name, behind = declare(under, inner)
                return word + " " + name, behind
            if kind.tag in ("array_type", "subroutine_type"):
                inner = f"({inner})" if inner.startswith("*") else inner
                sizes = "()"
                if kind.tag == "array_type":
                    sizes = "".join(f"[{'' if it is None else it}]" for it in self.counts(kind))
                return declare(self.type(kind), inner + sizes)
            word = {"structure_type": "struct ", "union_type": "union ", "enumeration_type": "enum "}.get(kind.tag, "")
            return word + (self.name(kind) or ""), inner

        name, behind = declare(kind, "")
        return name + (" " if behind and behind[0] != "[" else "") + behind

    def kind(self, kind):
        kind = self.bare(kind)
        if kind and kind.tag == "enumeration_type":
            kind = self.bare(self.type(kind))
        if not kind or kind.tag == "pointer_type":
            return "Pointer" if kind else "Other"
        if kind.tag in ("structure_type", "union_type", "array_type"):
            return "Parts"
        encoding = re.match(r"DW_ATE_(\w+)", kind.get("encoding") or "")
        signs = {"signed": "Signed", "signed_char": "Signed", "float": "Float"}
        whole = ("boolean", "unsigned", "unsigned_char")
        return signs.get(encoding[1], "Unsigned" if encoding[1] in whole else "Other") if encoding else "Other"

    def in_scope(self, function, offset):
        lines, scopes = [], self.scopes(function, offset)
        for i in range(len(scopes) - 1, -1, -1):
            depth = sum(it.tag == "inlined_subroutine" for it in scopes[: i + 1])
            for child in scopes[i].children:
                if child.tag not in ("formal_parameter", "variable"):
                    continue
                place, name, kind = self.place(child, offset, self.frame(function)), self.name(child), self.type(child)
                size = self.size(kind) if kind else None
                if place and name and size is not None:
                    word = "parameter" if child.tag == "formal_parameter" else "local"
                    lines.append(f" {word} {self.words(kind)} {name}: {size} bytes, {self.kind(kind)}, {depth} calls, {place}")
        return lines


def case(debug, module, path, step, inside):
    """The cases of a module: of bytes inside what is named the first ones, and of offsets one in so many."""
    lines = [f"== names of data of {os.path.basename(module)}", f"module {path}"]
    spans = debug.variables()
    wanted, given = [], []
    for address, size, name, kind in spans:
        for byte in range(address - 1, address + size + 1):
            holds = [it for it in spans if it[0] <= byte < it[0] + it[1]]
            words = debug.call(holds[0][3], holds[0][0], holds[0][1], holds[0][2], holds[0][0], byte) if holds else "-"
            if "+" in words and int(words.split("+")[1]) > inside or str(byte) in wanted:
                continue
            wanted.append(str(byte))
            given.append(f"{byte} {words}")
    lines += ["data " + " ".join(wanted)] + [f"gives {it}" for it in given]
    names = [name for _, _, name, _ in spans]
    sought, found = [], []
    for line in dict.fromkeys(given):
        byte, words = line.split(" ")
        if words == "-" or "+" in words or names.count(re.split(r"[.\[]", words)[0]) > 1:
            continue
        holds = next(it for it in spans if it[0] <= int(byte) < it[0] + it[1])
        size = 1
        end = holds[0] + holds[1] - int(byte)
        while size < end and debug.call(holds[3], holds[0], holds[1], holds[2], holds[0], int(byte) + size) == f"{words}+{size}":
            size += 1
        sought.append(words)
        found.append((words, byte, size))
    lines += [f"== places of data of {os.path.basename(module)}", f"module {path}", "sought " + " ".join(sought)]
    lines += [f"gives {words} {byte} {size}" for words, byte, size in found]
    offsets, chains, variables = [], [], []
    for function, ranges in debug.functions():
        for low, high in ranges:
            for offset in range(low, min(high, 0xFFFF_FFFF), step):
                offsets.append(str(offset))
                chain = debug.chain(function, offset)
                chains.append(f"gives {offset}: {chain}" if chain else f"gives {offset}:")
                variables.append(f"gives {offset}:")
                variables += [f"gives {it}" for it in debug.in_scope(function, offset)]
    lines += [f"== calls of {os.path.basename(module)}", f"module {path}", "inlined " + " ".join(offsets)] + chains
    lines += [f"== variables of {os.path.basename(module)}", f"module {path}", "variables " + " ".join(offsets)] + variables
    return lines


def print_cases():
    data = f"{ROOT}/crates/cases/data"
    for name in ("queue-dwarf-5.wasm", "queue-dwarf-4.wasm", "kinds-dwarf-5.wasm"):
        debug = Debug(f"{data}/{name}", "llvm-dwarfdump-14")
        print("\n".join(case(debug, f"{data}/{name}", name, 29, 1)))


def try_cases(lines, file):
    """Tries cases, and answers whether all come out as llvm-dwarfdump has it."""
    with open(file, "w") as out:
        out.write("\n".join(["What is read of debug information, as llvm-dwarfdump has it.", ""] + lines) + "\n")
    words = [os.environ["PROGRAM"]] if "PROGRAM" in os.environ else ["rt", "try", "--"]
    return subprocess.run(words + ["lines", file], cwd=f"{ROOT}/crates/cases", check=False).returncode == 0


def main():
    if "--cases" in sys.argv:
        return print_cases()
    folder = os.path.abspath(sys.argv[1] if len(sys.argv) > 1 else "/tmp/debug_info")
    os.makedirs(folder, exist_ok=True)
    made = right = 0
    for clang in ("clang", "clang-16", "clang-19"):
        if not shutil.which(clang):
            continue
        dumper = shutil.which(clang.replace("clang", "llvm-dwarfdump")) or "llvm-dwarfdump"
        for program in ("kinds.c", "queue.c", "small.c"):
            for level in ("-O0", "-O1", "-O2"):
                for version in ("4", "5"):
                    module = f"{folder}/{program[:-2]}-{clang}{level}-{version}.wasm"
                    words = [f"{ROOT}/c/wathread-cc", "-g", f"-gdwarf-{version}", level, program, "-o", module]
                    subprocess.run(words, check=True, cwd=f"{HERE}/debug", env={**os.environ, "CC": clang})
                    # what has no proof is interpreted, and slow
                    step = 1 if "PROGRAM" in os.environ else 17
                    lines = case(Debug(module, dumper), module, module, step, 9)
                    made += 1
                    right += try_cases(lines, f"{folder}/info.cases")
    print(f"{right} of {made} modules are as llvm-dwarfdump has them")
    sys.exit(right != made)


if __name__ == "__main__":
    main()
