#!/usr/bin/env python3
"""Makes the manual page and the completions of wathread-cc out of what c/wathread-cc says with --help.

    release/manual_cc.py            writes them into share/
    release/manual_cc.py --check    says which of them are others, or lack an option; the status is 1 where one is
"""
import os
import re
import subprocess
import sys

sys.dont_write_bytecode = True
from manual import TOP, quoted, roff, text_of  # noqa: E402

NAME = "wathread-cc"
HEAD = "Made by release/manual_cc.py out of what wathread-cc says of itself."


class Option:
    """An option: its names, the word behind it, the words that it may be, and what it is for."""

    def __init__(self, names, text):
        self.names = re.findall(r"(?<!\S)--?[\w-]+", names)
        value = re.search(r" ([A-Z]+|[a-z]\w*)$", names)
        self.value = value and value.group(1)
        self.text = " ".join(text)
        listed = re.search(r"=LIST: these alone, of ([a-z,]+)", self.text)
        self.list = listed.group(1).split(",") if listed else []
        self.words = []
        if self.value and self.value.islower():
            self.words = [self.value] + re.findall(r"; (\w+):", self.text)
            self.value = "ORDERS"

    @property
    def is_file(self):
        return self.value == "OUT"


def read():
    """The usage, what it does, its options, and what stands behind them."""
    words = [os.path.join(TOP, "c", NAME), "--help"]
    said = subprocess.run(words, stdout=subprocess.PIPE, check=True, text=True).stdout
    usage, about, rest = said.split("\n\n", 2)
    listed, behind = rest.split("\n\n", 1)
    found = []
    for line in listed.splitlines():
        head = re.fullmatch(r" {4}(-.*?)(?: {2,}(.*))?", line)
        if head:
            found.append((head.group(1), [head.group(2)] if head.group(2) else []))
        else:
            found[-1][1].append(line.strip())
    return usage[len("usage: "):], about.splitlines(), [Option(*it) for it in found], behind.split("\n")


def manual(usage, about, options, behind):
    out = [f'.\\" {HEAD}', '.TH WATHREAD-CC 1 "" "wathread" "User Commands"', ".SH NAME"]
    out += [roff(NAME) + " \\- compiles C to a WebAssembly module for wathread", ".SH SYNOPSIS", ".B " + roff(NAME)]
    out += [roff(usage[len(NAME) + 1:]), ".SH DESCRIPTION", roff(about[0].rstrip(":") + ":"), ".PP", ".nf", ".RS"]
    out += [roff(line.strip()) for line in about[1:]] + [".RE", ".fi", ".SH OPTIONS"]
    for it in options:
        value = f" \\fI{roff('|'.join(it.words) or it.value)}\\fR" if it.value else ""
        out += [".TP", f"\\fB{roff(', '.join(it.names))}\\fR{value}", roff(it.text)]
    out += [".SH CLANG"] + [roff(line) for line in behind if line]
    out += [".SH SEE ALSO", ".BR wathread (1)"]
    return "\n".join(out) + "\n"


def bash(options):
    out = [f"# Completions of {NAME} for bash. {HEAD}", "_wathread_cc() {", "    local word=$2 before=$3"]
    out += ["    COMPREPLY=()", "    case $before in"]
    set_to = '        {}) COMPREPLY=($(compgen {} -- "$word")); return ;;'.format
    for it in options:
        if it.words:
            out += [set_to(it.names[-1], f'-W "{" ".join(it.words)}"')]
        elif it.is_file:
            out += [set_to(it.names[-1], "-f")]
        elif it.value:
            out += [f"        {it.names[-1]}) return ;;"]
    names = " ".join(name for it in options for name in it.names)
    out += ["    esac", "    case $word in", f'        -*) COMPREPLY=($(compgen -W "{names}" -- "$word")) ;;']
    out += ['        *) COMPREPLY=($(compgen -f -- "$word")) ;;', "    esac", "}"]
    return "\n".join(out + [f"complete -o filenames -F _wathread_cc {NAME}"]) + "\n"


def zsh(options):
    out = [f"#compdef {NAME}", f"# Completions of {NAME} for zsh. {HEAD}", "_arguments \\"]
    for it in options:
        text = it.text.replace("\\", "\\\\").replace("[", "\\[").replace("]", "\\]")
        action = f"({' '.join(it.words)})" if it.words else "_files" if it.is_file else ""
        action = f":{it.value}:{action}" if it.value else ""
        if it.list:
            out += [f"    {quoted(f'{it.names[0]}=-[these alone]:LIST:_values -s , what ' + ' '.join(it.list))} \\"]
        out += [f"    {quoted(f'{name}[{text}]{action}')} \\" for name in it.names]
    return "\n".join(out + ["    '*:file:_files'"]) + "\n"


def fish(options):
    out = [f"# Completions of {NAME} for fish. {HEAD}"]
    for it in options:
        for name in it.names:
            flag = f"-l {name[2:]}" if name.startswith("--") else f"-s {name[1:]}"
            value = " -r" if it.is_file else " -x" if it.value else ""
            value += f" -a {quoted(' '.join(it.words))}" if it.words else ""
            out += [f"complete -c {NAME} {flag}{value} -d {quoted(it.text)}"]
    return "\n".join(out) + "\n"


def made(usage, about, options, behind):
    return {
        f"share/man/man1/{NAME}.1": manual(usage, about, options, behind),
        f"share/bash-completion/completions/{NAME}": bash(options),
        f"share/zsh/site-functions/_{NAME}": zsh(options),
        f"share/fish/vendor_completions.d/{NAME}.fish": fish(options),
    }


def lacks(path, text, options):
    """The options that a file hasn't got."""
    ways = {".1": roff, ".fish": lambda it: f" -l {it[2:]}" if it.startswith("--") else f" -s {it[1:]}"}
    way = ways.get(os.path.splitext(path)[1], lambda it: it)
    return [name for it in options for name in it.names if not re.search(re.escape(way(name)) + r"(?![\w-])", text)]


def main(words):
    if words not in ([], ["--check"]):
        sys.exit(__doc__)
    parts = read()
    wrong = 0
    for name, text in made(*parts).items():
        path = os.path.join(TOP, name)
        if not words:
            os.makedirs(os.path.dirname(path), exist_ok=True)
            with open(path, "w", encoding="utf-8") as it:
                it.write(text)
            continue
        kept = text_of(path) or ""
        missing = lacks(path, kept, parts[2])
        if missing:
            print(f"{name} lacks {' '.join(missing)}")
        elif kept != text:
            print(f"{name} isn't what wathread-cc says of itself: release/manual_cc.py writes it anew")
        wrong += bool(missing) or kept != text
    sys.exit(1 if wrong else 0)


if __name__ == "__main__":
    main(sys.argv[1:])
