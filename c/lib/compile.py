#!/usr/bin/env python3
"""compile.py WORK EDITS CLANG.. -- WORDS..: does what clang would do for WORDS, for wathread-cc, and edits what it makes
in between. WORK is a folder for what is made on the way; EDITS are of `atomic`, `library`, `orders`, `spurious` and `typed`
(ir.py), and `strong` where orders that are weaker than seq_cst are told, with commas between.

clang says by -### what it would run. Of a source the front alone is run, its LLVM text edited (ir.py), assembly made
of that and edited (masks.py), and an object of that. What is linked is linked as it says; wasm-opt behind that, which
takes the names away, isn't run. What is made comes to its place at the end, where nothing failed.
"""
import os
import re
import subprocess
import sys

sys.dont_write_bytecode = True
from files import Refused, write  # noqa: E402
from ir import edit  # noqa: E402
from linked import Objects  # noqa: E402
from masks import declared, mask  # noqa: E402
from rust import MARK  # noqa: E402
from simulate import is_weaker  # noqa: E402

SAID = re.compile(r'.*?: (?:fatal )?(?:error|warning|note): ')
EXCHANGES = re.compile(r' atomicrmw (?:volatile )?(?:nand|u?min|u?max) |cmpxchg_u')     # see masks.py
SIDE = {'-dependency-file': 1, '-MT': 1, '-sys-header-deps': 0, '-header-include-file': 1, '-serialize-diagnostic-file': 1,
        '-dependency-dot': 1}


def run(words):
    status = subprocess.run(words, check=False).returncode
    if status < 0:
        raise Refused(f'{os.path.basename(words[0])} ended by signal {-status}')
    return status == 0


def value(words, option):
    """What stands behind an option, the last time that it comes."""
    return next((words[i + 1] for i in reversed(range(len(words) - 1)) if words[i] == option), None)


def jobs(clang, words):
    """The commands that clang would run. Its own messages are printed."""
    if sys.stderr.isatty():
        words = ['-fcolor-diagnostics', *words]
    asked = subprocess.run([*clang, '-###', *words], stdin=subprocess.DEVNULL, stderr=subprocess.PIPE, check=False)
    said = os.fsdecode(asked.stderr)
    commands = re.findall(r'^ ("(?:[^"\\]|\\.)*"(?: "(?:[^"\\]|\\.)*")*)$', said, re.M | re.S)
    found = [[re.sub(r'\\(.)', r'\1', word, flags=re.S) for word in re.findall(r'"((?:[^"\\]|\\.)*)"', command, re.S)]
             for command in commands]
    messages = [line for line in said.split('\n') if not line.startswith(' "') and SAID.match(line)]
    for line in messages:
        print(line, file=sys.stderr)
    if asked.returncode or any(': error: ' in line for line in messages):
        sys.exit(1)
    return found


class Compiler:
    def __init__(self, work, edits):
        self.work, self.edits, self.made, self.ways, self.objects = work, edits, {}, 0, Objects(work)
        self.said = set()                               # the lines of clang's front about the source

    def way(self, end):
        self.ways += 1
        return os.path.join(self.work, f'{self.ways}.{end}')

    def job(self, words):
        """Runs a command, or what stands for it, and says whether that went well."""
        words = [self.made.get(word, word) for word in words]
        out = value(words, '-o')
        if out is None or '-o' not in words:
            return run(words)
        place = words.index(out, len(words) - 1 - words[::-1].index('-o'))
        made = out if out.startswith(self.work + '/') else self.way('out')
        words[place] = made
        if made == out and '-emit-llvm-bc' in words:    # -flto: what is linked in this call is edited like all else
            words = ['-emit-obj' if word == '-emit-llvm-bc' else word for word in words if not word.startswith('-flto')]
        if '-cc1' in words[:2] and ('-emit-obj' in words or '-S' in words):
            done = self.source(words, made)
        elif '-cc1as' in words[:2]:
            done = self.assembly(words, made)
        elif '-cc1' in words[:2]:
            done = run(words)
        else:
            done = self.link(words)
        if made != out:
            self.made[out] = made
        return done

    def source(self, words, out):
        """From a source to an object, or to assembly where that is asked for."""
        text, assembly = self.way('ll'), self.way('s')
        mode = '-emit-obj' if '-emit-obj' in words else '-S'
        at = words.index(out)
        front = ['-emit-llvm' if word == mode else word for word in words]
        front[at] = text
        if not self.front([*front[:2], '-disable-llvm-passes', *front[2:]]):
            return False
        self.objects.add(out, words[-1], text)
        with open(text, encoding='utf-8', errors='surrogateescape') as file:
            made = file.read()
        self.tell_orders(made, words[-1])
        edited, left = edit(made, self.edits)
        with open(text, 'w', encoding='utf-8', errors='surrogateescape') as file:
            file.write(edited)
        for name in left:
            print(f'wathread-cc: in {name}: volatile accesses that stay plain: of no whole word, or not aligned',
                  file=sys.stderr)
        back = without(words[:-3]) + ['-x', 'ir', text]
        if mode == '-emit-obj' and not EXCHANGES.search(edited):
            return self.finish(words, back)
        if not self.finish(words, ['-S' if word == mode else assembly if word == out else word for word in back]):
            return False
        with open(assembly, encoding='utf-8', errors='surrogateescape') as file:
            made = file.read()
        masked = mask(made)
        if mode == '-emit-obj' and masked == made:
            return self.finish(words, back)
        names = {} if mode == '-S' else odd_names(masked)
        for name, other in names.items():
            masked = masked.replace(f', {name}\n', f', {other}\n')
        with open(assembly if mode == '-emit-obj' else out, 'w', encoding='utf-8', errors='surrogateescape') as file:
            file.write(declared(masked))
        return mode == '-S' or self.assemble(words, assembly, out, names)

    def front(self, words):
        done = subprocess.run(words, stderr=subprocess.PIPE, check=False)
        if done.returncode < 0:
            raise Refused(f'{os.path.basename(words[0])} ended by signal {-done.returncode}')
        sys.stderr.buffer.write(done.stderr)
        sys.stderr.flush()
        self.said = set(done.stderr.split(b'\n'))
        return done.returncode == 0

    def link(self, words):
        """Links, and says by names of sources what fails there."""
        done = subprocess.run(words, stderr=subprocess.PIPE, check=False)
        for line in self.objects.told(os.fsdecode(done.stderr)):
            print(line, file=sys.stderr)
        if done.returncode < 0:
            raise Refused(f'{os.path.basename(words[0])} ended by signal {-done.returncode}')
        return done.returncode == 0

    def tell_orders(self, text, source):
        """Tells once of memory orders that come to nothing."""
        if 'strong' in self.edits and is_weaker(text):
            self.edits.remove('strong')
            print(f'wathread-cc: {source}: memory orders are all compiled as seq_cst, so one that is too weak is not found: '
                  '--orders c11 simulates them, --orders sc is as it is', file=sys.stderr)

    def finish(self, words, last):
        """Runs a step behind the front. A fault there, as in an assembly statement, clang says by lines of the source
        where it does all at once, and so it is asked once more."""
        done = subprocess.run(last, stderr=subprocess.PIPE, check=False)
        if done.returncode:
            again = without(words[:-3]) + ['-w', *words[-3:]]
            again[again.index('-o') + 1] = self.way('o')
            if words[-1] != '-' and not run(again):
                return False
        lines = [line for line in done.stderr.split(b'\n') if line not in self.said]
        sys.stderr.buffer.write(b'\n'.join([*lines, b'']) if lines else b'')
        sys.stderr.flush()
        return done.returncode == 0

    def assemble(self, words, assembly, out, names):
        like = [word for i, option in enumerate(words) if option == '-target-feature' for word in words[i:i + 2]]
        like += [word for word in words if word.startswith('-dwarf-version=')]
        like += ['-mno-type-check'] * ('typed' not in self.edits)
        last = [words[0], '-cc1as', '-triple', value(words, '-triple'), '-filetype', 'obj', '-target-cpu',
                value(words, '-target-cpu'), *like, '-mrelocation-model', 'static', '-o', out, assembly]
        if not self.finish(words, last):
            return False
        if names:
            with open(out, 'r+b') as file:
                data = file.read()
                for name, other in names.items():
                    name, other = os.fsencode(name), os.fsencode(other)
                    data = data.replace(bytes([len(other)]) + other, bytes([len(name)]) + name)
                file.seek(0)
                file.write(data)
        return True

    def assembly(self, words, out):
        """From assembly to an object."""
        self.objects.add(out, words[-1])
        if os.path.isfile(words[-1]):
            with open(words[-1], encoding='utf-8', errors='surrogateescape') as file:
                text = file.read()
            masked = mask(text)
            if text.startswith(MARK) and 'typed' not in self.edits:
                words = [*words[:-1], '-mno-type-check', words[-1]]
            if masked != text:
                source, words = words[-1], [*words[:-1], self.way('s')]
                with open(words[-1], 'w', encoding='utf-8', errors='surrogateescape') as file:
                    file.write(f'# 1 "{source}"\n{masked}')
        return run(words)

    def place(self):
        """Puts what was made to its place."""
        for out, made in self.made.items():
            try:
                with open(made, 'rb') as file:
                    data = file.read()
                if out == '-':
                    sys.stdout.buffer.write(data)
                else:
                    write(out, data)
            except OSError as error:
                raise Refused(f'{out}: {error.strerror}')


def odd_names(text):
    """Names of exports and imports that no assembly text can have, as `thread-spawn`, with one as long for each."""
    names = set(re.findall(r'^\t\.(?:export_name|import_name|import_module)\t[^,]*, (.*[^\w.$@\n].*)$', text, re.M))
    out = {}
    for i, name in enumerate(sorted(names)):
        length, number = len(os.fsencode(name)), f'w${i:x}'
        if not len(number) <= length < 128:
            raise Refused(f'an export or import called {name}, in a source that has a narrow compare-exchange')
        out[name] = number + '$' * (length - len(number))
    return out


def without(words):
    """The words of a front without what it writes beside."""
    out, at = [], 0
    while at < len(words):
        if words[at] in SIDE:
            at += SIDE[words[at]]
        else:
            out.append(words[at])
        at += 1
    return out


def is_whole(commands, work):
    """Whether one source is compiled and linked, with nothing but what wathread-cc adds."""
    sources = [command for command in commands if command[1:2] in (['-cc1'], ['-cc1as'])]
    rest = [word for command in commands if command not in sources for word in command[1:]
            if word.endswith(('.o', '.a')) or word.startswith('-l')]
    return len(sources) == 1 and len(commands) == 2 and all(word.startswith(work + '/') for word in rest)


def main(work, edits, *words):
    at = words.index('--')
    commands = [command for command in jobs(words[:at], list(words[at + 1:]))
                if not os.path.basename(command[0]).startswith('wasm-opt')]
    compiler = Compiler(work, edits.split(',') + ['whole'] * is_whole(commands, work))
    well = True
    for i, command in enumerate(commands):
        links = i == len(commands) - 1 and '-cc1' not in command[:2] and '-cc1as' not in command[:2]
        well = (well or not links) and compiler.job(command) and well
    if not well:
        sys.exit(1)
    compiler.place()


try:
    main(*sys.argv[1:])
except Refused as refused:
    sys.exit(f'wathread-cc: {refused}')
