#!/usr/bin/env python3
"""Makes the manual page, the completions and the usage block of wathread out of what the program says with --help.

    release/manual.py PROGRAM                 writes them into share/, and the block into docs/COMMAND_LINE.md
    release/manual.py PROGRAM --check         says which of them are others; the status is 1 where one is
    release/manual.py PROGRAM --usage-block   prints the block

The block stands between the lines `<!-- usage -->` and `<!-- /usage -->`. `./wathread --install DIR` puts share/ into DIR.
"""
import os
import re
import subprocess
import sys
import textwrap

TOP = os.path.dirname(os.path.dirname(os.path.abspath(__file__)))
PAGE = "docs/COMMAND_LINE.md"

STATUSES = [
    (0, "The module was accepted, each thread ended well, or the search found nothing of what is looked for."),
    (1, "A thread ended in a trap or a stop, races were told, or a search found what is looked for or hasn't all endings."),
    (2, "The module was refused."),
    (3, "The command line, or the call, was refused."),
    (4, "The record was refused: it is of no run of the module."),
    (5, "A file or a stream failed, or the system had too little memory or no thread left."),
]

EXAMPLES = [
    ("Run the exported function main, and keep a record of the run:", "wathread run counter.wasm --invoke main --record run.record"),
    ("Make that same run again, and see what each thread did:", "wathread replay counter.wasm run.record\nwathread show counter.wasm run.record"),
    ("Look for a run that fails, and keep a short one:", "wathread search lock.wasm --invoke main --record bad.record --shrink"),
    ("Go through every order of the threads:", "wathread search lock.wasm --invoke main --all"),
]


class Option:
    """An option of a command: its names, the word behind it, what it is for, the words that it may be, and whether it may be
    given several times."""

    def __init__(self, names, value, text):
        self.short = next((it for it in names if not it.startswith("--")), None)
        self.long = next((it for it in names if it.startswith("--")), None)
        self.value = value
        words = re.search(r" \[possible values: (.*)\]$", text)
        self.words = words.group(1).split(", ") if words else []
        self.text = text
        self.is_list = text.endswith("; may be given several times")

    @property
    def is_file(self):
        return self.value in ("OUT", "FILE2", "PATH")


class Command:
    """A command: its name, its one line, its usage, its arguments and its options."""

    def __init__(self, name, about, usage, arguments, options, behind):
        self.name, self.about, self.usage = name, about, usage
        self.arguments, self.options, self.behind = arguments, options, behind


def help_of(program, *words):
    said = subprocess.run(["wathread", *words, "--help"], executable=program, stdout=subprocess.PIPE, check=True, text=True)
    return said.stdout


def sections(text):
    """The first line, and the lines below each heading."""
    found, name = {"": []}, ""
    for line in text.splitlines():
        head = re.fullmatch(r"(Usage|Commands|Arguments|Options):(.*)", line)
        if head:
            name = head.group(1)
            found[name] = [head.group(2)] if head.group(2) else []
        elif line and not line.startswith(" "):
            found.setdefault("behind" if name else "", []).append(line)
            name = name and "behind"
        elif line:
            found[name].append(line)
    return found


def command_of(program, name):
    parts = sections(help_of(program, name))
    arguments = [re.fullmatch(r"  (\S+)\s+(.*)", it).groups() for it in parts.get("Arguments", [])]
    options = []
    for line in parts["Options"]:
        names, text = re.fullmatch(r"\s+((?:-\w, )?--[\w-]+(?: <[^>]+>)?)\s+(.*)", line).groups()
        value = re.search(r" <([^>]+)>", names)
        names = re.sub(r" <[^>]+>", "", names).split(", ")
        options.append(Option(names, value and value.group(1), text))
    return Command(name, parts[""][0], parts["Usage"][0].strip(), arguments, options, parts.get("behind", []))


def read(program):
    parts = sections(help_of(program))
    names = [it.split()[0] for it in parts["Commands"]]
    about = parts[""][0]
    return about, [command_of(program, it) for it in names if it != "help"]


def roff(text):
    """A line of text as roff has it."""
    text = text.replace("\\", "\\e").replace("-", "\\-")
    return "\\&" + text if text[:1] in (".", "'") else text


def behind(lines):
    """What stands behind the options: lines that begin with a space stay as they are, below each other."""
    apart = [line for line in lines if line.startswith(" ")]
    text = [roff(line) for line in lines if not line.startswith(" ")]
    return text + ([".PP", ".nf"] + [roff(line.strip()) for line in apart] + [".fi"] if apart else [])


def manual(about, commands):
    out = ['.\\" Made by release/manual.py out of what the program says of itself.', '.TH WATHREAD 1 "" "wathread" "User Commands"']
    out += [".SH NAME", "wathread \\- " + roff(about[0].lower() + about[1:]), ".SH SYNOPSIS"]
    for it in commands:
        out += [".B wathread", roff(it.usage[len("wathread "):]), ".br"]
    out += [".SH DESCRIPTION"]
    out += [
        "wathread runs WebAssembly modules whose threads share one memory, as clang makes them of C, keeps a run that you",
        "want to keep, and makes that same run again as often as you like. It is proved: whatever comes of a run, one order",
        "of all that its threads did in the shared memory explains it. A module is made of C by",
        ".BR wathread\\-cc .",
    ]
    for it in commands:
        out += [f".SH {it.name.upper()}", ".B wathread", roff(it.usage[len("wathread "):]), ".PP", roff(it.about) + "."]
        for name, text in it.arguments:
            out += [".TP", f".I {roff(name)}", roff(text) + "."]
        for option in it.options:
            names = ", ".join(filter(None, [option.short, option.long]))
            value = f" \\fI{roff(option.value)}\\fR" if option.value else ""
            out += [".TP", f"\\fB{roff(names)}\\fR{value}", roff(option.text) + "."]
        out += [".PP"] + behind(it.behind) if it.behind else []
    out += [".SH EXIT STATUS"]
    for number, text in STATUSES:
        out += [".TP", f".B {number}", roff(text)]
    out += [".SH EXAMPLES"]
    for text, lines in EXAMPLES:
        out += [roff(text), ".PP", ".nf", ".RS"] + [roff(line) for line in lines.split("\n")] + [".RE", ".fi", ".PP"]
    return "\n".join(out) + "\n"


def bash(commands):
    out = ["# Completions of wathread for bash. Made by release/manual.py.", "_wathread() {"]
    out += ['    local word=$2 before=$3 command=${COMP_WORDS[1]-} words=""', "    COMPREPLY=()"]
    names = " ".join(it.name for it in commands)
    out += ['    if [ "$COMP_CWORD" = 1 ]; then', f'        COMPREPLY=($(compgen -W "{names} help --help --version" -- "$word"))', "        return", "    fi"]
    out += ["    case $command,$before in"]
    for it in commands:
        for option in it.options:
            if option.words:
                out += [f"        {it.name},{option.long}) COMPREPLY=($(compgen -W \"{' '.join(option.words)}\" -- \"$word\")); return ;;"]
            elif option.is_file:
                out += [f"        {it.name},{option.long}) COMPREPLY=($(compgen -f -- \"$word\")); return ;;"]
            elif option.value:
                out += [f"        {it.name},{option.long}) return ;;"]
    out += ["    esac", "    case $command in"]
    for it in commands:
        out += [f"        {it.name}) words=\"{' '.join(option.long for option in it.options)}\" ;;"]
    out += [f'        help) words="{names}" ;;', "    esac"]
    out += ['    case $word in', '        -*) COMPREPLY=($(compgen -W "$words" -- "$word")) ;;']
    out += ['        *) [ "$command" != help ] || { COMPREPLY=($(compgen -W "$words" -- "$word")); return; }', '            COMPREPLY=($(compgen -f -- "$word")) ;;', "    esac", "}"]
    out += ["complete -o filenames -F _wathread wathread"]
    return "\n".join(out) + "\n"


def quoted(text):
    return "'" + text.replace("'", "'\\''") + "'"


def zsh(commands):
    out = ["#compdef wathread", "# Completions of wathread for zsh. Made by release/manual.py.", "_wathread() {", "    local -a commands", "    commands=("]
    out += ["        " + quoted(f"{it.name}:{it.about}") for it in commands]
    out += ["    )", "    if (( CURRENT == 2 )); then", "        _describe command commands", "        return", "    fi", "    local name=$words[2]", "    shift words", "    (( CURRENT-- ))", "    case $name in"]
    for it in commands:
        out += [f"        {it.name})", "            _arguments \\"]
        for option in it.options:
            text = option.text.replace("\\", "\\\\").replace("[", "\\[").replace("]", "\\]").replace(":", "\\:")
            spec = f"{'*' * option.is_list}{option.long}[{text}]"
            if option.value:
                action = f"({' '.join(option.words)})" if option.words else "_files" if option.is_file else ""
                spec += f":{option.value.replace(':', ' ').replace('[', '').replace(']', '')}:{action}"
            out += [f"                {quoted(spec)} \\"]
        out += ["                '*:file:_files'", "            ;;"]
    out += ["    esac", "}", '_wathread "$@"']
    return "\n".join(out) + "\n"


def fish(commands):
    names = " ".join(it.name for it in commands)
    out = ["# Completions of wathread for fish. Made by release/manual.py."]
    for it in commands:
        out += [f"complete -c wathread -n 'not __fish_seen_subcommand_from {names}' -f -a {it.name} -d {quoted(it.about)}"]
    for it in commands:
        for option in it.options:
            line = f"complete -c wathread -n '__fish_seen_subcommand_from {it.name}' -l {option.long[2:]}"
            line += f" -s {option.short[1:]}" if option.short else ""
            if option.value:
                line += f" -x -a {quoted(' '.join(option.words))}" if option.words else " -r" if option.is_file else " -x"
            out += [f"{line} -d {quoted(option.text)}"]
    return "\n".join(out) + "\n"


def usage_words(command):
    """A command's words, each of which stays on one line: what has to be there first, and what may be in brackets."""
    words = [name.strip("<>") for name, _ in command.arguments if name.startswith("<")]
    needed = re.findall(r"(--\S+) <", command.usage)
    values = {it.long: " " + ("|".join(it.words) or it.value) if it.value else "" for it in command.options}
    words += [name + values[name] for name in needed]
    for name, value in values.items():
        if name == "--explain":
            words.append("[--explain|--no-explain]")
        elif name not in needed + ["--no-explain", "--help"]:
            words.append(f"[{name}{value}]")
    return words + [name.replace("]...", "..]") for name, _ in command.arguments if not name.startswith("<")]


def usage_block(commands):
    lines = ["```"]
    for it in commands:
        head = f"wathread {it.name} "
        words = [word.replace(" ", "\0") for word in usage_words(it)]
        text = textwrap.fill(" ".join(words), 118, initial_indent=head, subsequent_indent=" " * len(head), break_long_words=False, break_on_hyphens=False)
        lines += text.replace("\0", " ").split("\n")
    return "\n".join(lines + ["```"]) + "\n"


def page_with(block):
    """The page with this block between its two lines, or nothing where it hasn't got them."""
    parts = re.fullmatch(r"(.*^<!-- usage -->\n).*(^<!-- /usage -->\n.*)", text_of(os.path.join(TOP, PAGE)) or "", re.S | re.M)
    return parts and parts.group(1) + block + parts.group(2)


def made(about, commands):
    return {
        "share/man/man1/wathread.1": manual(about, commands),
        "share/bash-completion/completions/wathread": bash(commands),
        "share/zsh/site-functions/_wathread": zsh(commands),
        "share/fish/vendor_completions.d/wathread.fish": fish(commands),
        PAGE: page_with(usage_block(commands)),
    }


def text_of(path):
    try:
        with open(path, encoding="utf-8") as it:
            return it.read()
    except OSError:
        return None


def main(words):
    if len(words) not in (1, 2) or words[1:] not in ([], ["--check"], ["--usage-block"]):
        sys.exit(__doc__)
    about, commands = read(os.path.abspath(words[0]))
    if words[1:] == ["--usage-block"]:
        print(usage_block(commands), end="")
        return
    others = 0
    for name, text in made(about, commands).items():
        path = os.path.join(TOP, name)
        if text is None:
            print(f"{name} has no lines <!-- usage --> and <!-- /usage -->, between which the usage stands")
            others += 1
            continue
        if len(words) == 2:
            if text_of(path) != text:
                print(f"{name} isn't what the program says of itself: release/manual.py PROGRAM writes it anew")
                others += 1
            continue
        os.makedirs(os.path.dirname(path), exist_ok=True)
        with open(path, "w", encoding="utf-8") as it:
            it.write(text)
    sys.exit(1 if others else 0)


if __name__ == "__main__":
    main(sys.argv[1:])
