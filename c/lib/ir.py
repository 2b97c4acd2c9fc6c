"""Edits the LLVM text of a source before anything is made better of it, so that the module has the accesses that the
source has.

- Each function is one that a tool for races would look at (`sanitize_thread`), and then LLVM moves no load in front of
  the test that guards it. The tool itself isn't run.
- Each variable is used from outside (`llvm.compiler.used`): else one that a single function touches may become one on
  each thread's stack, and a structure fall into pieces. What nobody uses the linker still leaves out.
- Accesses of what other threads may see are `volatile`, which LLVM neither adds nor moves nor leaves out: the two marks
  above don't keep it from reading both of what `c ? &a : &b` may be. Not those of constants, of thread-local variables by
  their name, and of local variables whose address goes nowhere.
- A `new` is no more than a call of what is called so: to LLVM it never fails, and may be left out with its `delete`.
- Where it is asked for, accesses that are volatile in the source become atomic ones, relaxed.
- Functions of the library are weak, so that the program's come before them. Its plain accesses stay as they are.
- Further edits need more lines or blocks (blocks.py).
- Where memory orders are simulated, accesses are calls of the runtime, or are told to it (simulate.py).
"""
import re

import simulate
from blocks import NAME, Blocks, Leaving, declared, end_of_type, split
from sites import Sites

GLOBAL = re.compile(rf'(@{NAME}) = ((?:[^"\s]+ |"[^"]*" )*?)(global|constant) ')
ELSEWHERE = {'external', 'extern_weak', 'available_externally', 'appending'}
DEFINE = re.compile(rf'define .*?@({NAME})\(')
GROUP = re.compile(r' #(\d+)\b')
ACCESS = re.compile(rf'(  (?:%{NAME} = )?(load|store)) (atomic )?(volatile )?(.*?)(, align (\d+).*)')
DERIVED = re.compile(rf'  (%{NAME}) = (?:getelementptr|bitcast) ')
THREADS_OWN = re.compile(rf'  (%{NAME}) = .*@llvm\.threadlocal\.address\.')
LOCAL = re.compile(rf'%{NAME}')
PRIVATE_CALL = re.compile(r'  (?:tail )?call void @llvm\.(?:lifetime|dbg|memcpy|memmove|memset)\b|    #dbg_')
STRONG = re.compile(r'define (?!internal |private |weak|linkonce|available)')
KEPT = '@llvm.compiler.used'
EXPORTED = re.compile(r'attributes #(\d+) = \{.*"wasm-export-name"=')
AS_IT_IS = re.compile(r'attributes #(\d+) = \{.*\bdisable_sanitizer_instrumentation\b')


class Globals:
    """The variables of a text."""

    def __init__(self, lines):
        self.types, self.private, self.constants = {}, set(), set()
        for line in lines:
            found = GLOBAL.match(line)
            if not found or found.group(1).startswith('@llvm.'):
                continue
            name, words, kind = found.groups()
            if kind == 'constant' or 'thread_local' in words:
                self.private.add(name)
            if kind == 'constant':
                self.constants.add(name)
            if kind == 'global' and ELSEWHERE.isdisjoint(words.split()):
                self.types[name] = line[found.end():end_of_type(line, found.end())]

    def kept(self, lines, typed):
        """The lines, with all that can change as used from outside; `typed` where pointers have types, as in version 14."""
        pointer = 'i8*' if typed else 'ptr'
        items = [f'i8* bitcast ({kind}* {name} to i8*)' if typed else f'ptr {name}' for name, kind in self.types.items()]
        out = []
        for line in lines:
            if line.startswith(KEPT + ' = '):
                inside = line[line.index('] [') + 3:line.rindex('], section')]
                items += [item for item in split(inside) if item not in items]
            else:
                out.append(line)
        if items:
            out.append(f'{KEPT} = appending global [{len(items)} x {pointer}] [{", ".join(items)}], '
                       'section "llvm.metadata"')
        return out


def own_pointers(body):
    """The names in a function that point into its own variables, of those whose address goes nowhere else."""
    roots, lost = {}, set()
    for line in body:
        code = line.split(', !')[0]
        derived, access, threads = DERIVED.match(line), ACCESS.match(line), THREADS_OWN.match(line)
        if ' = alloca ' in line:
            name = LOCAL.search(line).group()
            roots[name] = name
        elif threads:
            roots[threads.group(1)] = None
        elif derived:
            base = next((roots[name] for name in LOCAL.findall(code)[1:] if name in roots), '')
            if base != '':
                roots[derived.group(1)] = base
        elif access:
            value = split(access.group(5))[0]
            lost.update(roots[name] for name in LOCAL.findall(value) if access.group(2) == 'store' and name in roots)
        elif not PRIVATE_CALL.match(line):
            lost.update(roots[name] for name in LOCAL.findall(code) if name in roots)
    return {name for name, root in roots.items() if root is None or root not in lost}


class Function:
    """One function: its lines, the first one with its name and its group of attributes."""

    def __init__(self, lines, globals_):
        self.lines, self.globals = lines, globals_
        self.name = DEFINE.match(lines[0]).group(1).strip('"')
        self.own, self.plain = own_pointers(lines), 0

    def shared(self, operand):
        """Whether others may see what a pointer points to."""
        names = re.findall('@' + NAME, operand)
        if names:
            return not self.globals.private.issuperset(names)
        return not self.own.issuperset(LOCAL.findall(operand)[-1:])

    def access(self, line, atomic):
        """A line, its access made volatile, or atomic where the source has it as volatile and that is asked for."""
        found = ACCESS.match(line)
        if not found or found.group(3):
            return line
        front, op, _, volatile, words, rest, align = found.groups()
        if volatile and atomic:
            kind = words[:end_of_type(words, 0)]
            size = 4 if kind == 'ptr' or kind.endswith('*') else {'i8': 1, 'i16': 2, 'i32': 4, 'i64': 8}.get(kind, 99)
            if size <= int(align):
                return f'{front} atomic volatile {words} monotonic{rest}'
            self.plain += 1
        if volatile or not self.shared(split(words)[-1]):
            return line
        return f'{front} volatile {words}{rest}'


def functions_of(lines):
    """The functions of a text: where each begins and ends."""
    at = 0
    while at < len(lines):
        if DEFINE.match(lines[at]):
            end = lines.index('}', at)
            yield at, end
            at = end
        at += 1


def simulations(lines, places, globals_, edits, sites):
    """What `--orders` does to each function, by where it begins. Parts of the library stay as they are."""
    if 'orders' not in edits:
        return {}
    groups = {found.group(1) for line in lines if (found := AS_IT_IS.match(line))}
    hidden = simulate.Hidden(lines, [lines[at + 1:end] for at, end in places], globals_.constants)
    return {at: simulate.Simulation(hidden.shared_in(lines[at + 1:end]), 'library' in edits and
                                    not groups.isdisjoint(GROUP.findall(lines[at])), sites)
            for at, end in places}


def edit(text, edits):
    """The text with all edits, those that are named where they are asked for, and the names of functions that have volatile
    accesses which can't be atomic."""
    lines, out, groups, left, done = text.split('\n'), [], set(), [], 0
    globals_ = Globals(lines)
    lines = globals_.kept(lines, 'typed' in edits)
    places = list(functions_of(lines))
    leaving = Leaving({DEFINE.match(lines[at]).group(1).strip('"'): lines[at + 1:end] for at, end in places},
                      'whole' in edits)
    sites = Sites([] if 'library' in edits or 'orders' not in edits else lines, 'typed' in edits)
    simulated = simulations(lines, places, globals_, edits, sites)
    exported = {found.group(1) for line in lines if 'library' not in edits and (found := EXPORTED.match(line))}
    for at, end in places:
        out += lines[done:at]
        function = None if 'library' in edits else Function(lines[at:end], globals_)
        groups.update(GROUP.findall(lines[at]))
        blocks = Blocks(lines[at] if function else STRONG.sub('define weak ', lines[at]), leaving,
                        not exported.isdisjoint(GROUP.findall(lines[at])))
        for line, after in zip(lines[at + 1:end], lines[at + 2:end + 1]):
            edited = function.access(line, 'atomic' in edits) if function else line
            for part in simulated[at].lines(edited) if simulated else [edited]:
                blocks.add(part, 'spurious' in edits)
            if not after.startswith(('  unreachable', '  ret ')):
                blocks.look(line)
        out += blocks.lines()
        left += [function.name] if function and function.plain else []
        done = end
    out = declared(out + lines[done:], leaving, 'spurious' in edits, bool(exported))
    marked = re.compile(r'attributes #(\d+) = \{')
    out = [line.replace(' builtin ', ' ', 1) if marked.match(line) else line for line in out]
    text = '\n'.join(f'{line[:-1]}sanitize_thread }}' if (found := marked.match(line)) and found.group(1) in groups else line
                     for line in out)
    return simulate.declared(text, sites) if simulated else text, left
