"""Edits of the LLVM text of a function that need further lines or blocks.

- The instruction of a narrow compare-exchange compares whole words: where the expected value has bits above its width, it
  never matches, and clang leaves them as they come, a signed byte of -1 as 0xFFFFFFFF. So it is masked in front of it, by
  an assembly statement, since LLVM would leave the mask out.

- `leave`: pthread_exit, exit and the like end a thread from within. WebAssembly has no way out of several functions at
  once. So they note that the thread leaves, and behind each call that may come to one of them the caller looks whether it
  does, and then returns too. What is noted is a global variable of each thread, no memory: so it makes no entry.
- A function that is exported tells the library that a call from outside begins, and ends (calls.c).
- `spurious`: a weak compare-exchange asks the library whether it is to fail for nothing, and then only loads.
"""
import os
import re

NAME = r'(?:"[^"]*"|[-\w$.]+)'
LABEL = re.compile(rf'({NAME}):')
FROM = re.compile(rf', %({NAME}) \]')
CALL = re.compile(rf'  (?:%{NAME} = )?(?:(?:tail|notail) )?call (.*)')
CALLEE = re.compile(rf' (?:([@%]{NAME})\(|bitcast \(.*?(@{NAME}) to |(?:\w+ )*?(asm) )')
DEBUG = re.compile(r', !dbg !\d+')
EXCHANGE = re.compile(rf'(  %{NAME} = cmpxchg (?:weak )?(?:volatile )?)(.*)')
MASKS = {'i8': 255, 'i16': 65535}
WEAK = re.compile(rf'  (%{NAME}) = cmpxchg weak (.*)')
NORETURN = re.compile(r'(attributes #\d+ = \{.*?) noreturn\b')
LEAVERS = {'exit', '_exit', '_Exit', 'quick_exit', 'pthread_exit', 'thrd_exit', 'assume'}
CALL_BACK = {'pthread_once', 'qsort', 'bsearch'}        # of the library, which call what they are given


def end_of_type(line, at):
    """Where the type ends that begins there."""
    depth = 0
    while depth or line[at] not in ' ,' or line[at:at + 2] == ' (':
        if line[at] == '"':
            at = line.index('"', at + 1)
        depth += (line[at] in '([{<') - (line[at] in ')]}>')
        at += 1
    return at


def split(text):
    """What stands between the outer commas."""
    items, depth, start = [], 0, 0
    for at, char in enumerate(text):
        depth += (char in '([{<') - (char in ')]}>')
        if char == ',' and not depth:
            items.append(text[start:at].strip())
            start = at + 1
    return items + [text[start:].strip()]


def callee(line):
    """The name that a line calls, `%` where it calls a pointer, or None."""
    found = CALL.match(line)
    found = found and CALLEE.search(' ' + found.group(1))
    if not found or found.group(3):
        return None
    name = found.group(1) or found.group(2)
    return '%' if name[0] == '%' else name[1:].strip('"')


def returned(first):
    """The type that a function returns, by its first line."""
    words, at, last = first[:re.search(rf' @{NAME}\(', first).start()] + ' ', 0, ''
    while at < len(words):
        end = end_of_type(words, at)
        at, last = end + 1, words[at:end]
    return last


def known():
    """The names that the headers have: what they call but CALL_BACK comes back."""
    folder, names = os.path.join(os.path.dirname(os.path.dirname(os.path.abspath(__file__))), 'include'), set()
    for place, _, files in os.walk(folder):
        for name in files:
            with open(os.path.join(place, name), encoding='utf-8') as file:
                names.update(re.findall(r'\w+(?=\()', file.read()))
    return names


class Leaving:
    """Which calls of a text may come to one of LEAVERS. `whole` where there is no other source or object."""

    def __init__(self, functions, whole):
        calls = {name: {callee(line) for line in lines} - {None} for name, lines in functions.items()}
        self.any = not whole or any(LEAVERS & names for names in calls.values())
        if not self.any:
            return
        self.comes_back, more = known() - LEAVERS - CALL_BACK, True
        self.local, self.leaves = set(calls), set()
        while more:
            more = {name for name, names in calls.items() if name not in self.leaves and any(map(self.may, names))}
            self.leaves |= more

    def may(self, name):
        if name.startswith('llvm.') or name.startswith('__wathread_'):
            return False
        return name in self.leaves if name in self.local else name not in self.comes_back

    def call(self, line):
        """Whether a line is a call that may."""
        name = self.any and callee(line)
        return bool(name) and self.may(name)


class Blocks:
    """The lines of a function as they are edited. Where a block is cut, who came from it comes from its last piece."""

    def __init__(self, first, leaving, exported):
        self.out, self.label, self.pieces, self.labels, self.number = [first], None, {}, set(), 0
        self.exported, self.begun = exported, False
        self.leaving, self.left = None if '@__wathread_' in first else leaving, False

    def mark(self):
        self.number += 1
        return f'wathread.{self.number}'

    def cut(self, label):
        self.out += ['', label + ':']
        self.pieces[self.label] = label

    def masked(self, line):
        """A compare-exchange that compares with what is masked. One of 32 bits may become one of 64 that isn't whole."""
        front, words = EXCHANGE.match(line).groups()
        place, expected, *rest = split(words)
        kind, value = expected.split(' ', 1)
        mark, debug = self.mark(), ''.join(DEBUG.findall(line)[-1:])
        if kind in MASKS:
            text = fr'local.get $1\0Ai32.const {MASKS[kind]}\0Ai32.and\0Alocal.set $0'
            self.out += [f'  %{mark}.wide = zext {kind} {value} to i32{debug}',
                         f'  %{mark}.mask = call i32 asm sideeffect "{text}", "=r,r"(i32 %{mark}.wide){debug}',
                         f'  %{mark} = trunc i32 %{mark}.mask to {kind}{debug}']
        elif kind == 'i32':
            self.out.append(f'  %{mark} = call i32 asm sideeffect "", "=r,0"(i32 {value}){debug}')
        else:
            return line
        return front + ', '.join([place, f'{kind} %{mark}', *rest])

    def add(self, line, spurious):
        """Takes a line, and what it asks for."""
        found = LABEL.match(line)
        if self.exported and line.startswith('  '):
            self.tell(line)
        if EXCHANGE.match(line):
            line = self.masked(line)
        weak = spurious and WEAK.match(line)
        if found:
            self.label = found.group(1)
            self.labels.add(self.label)
        if weak:
            self.fail(*weak.groups())
        elif line.startswith('  unreachable') and self.leaving and self.leaving.call(self.out[-1]):
            self.out.append('  br label %wathread.leave')
            self.left = True
        else:
            self.out.append(line)

    def tell(self, line):
        """In front of the first line, and of a return: that a call from outside begins, or ends, if it is one."""
        debug = ''.join(DEBUG.findall(line)[-1:])
        if not self.begun:
            self.out.append(f'  %wathread.begun = call i32 @__wathread_call_begins(){debug}')
            self.begun = True
        if line.startswith('  ret '):
            self.out.append(f'  call void @__wathread_call_ends(i32 %wathread.begun){debug}')

    def look(self, line):
        """Behind a call, which is the last line: whether the thread leaves."""
        if not self.leaving or not self.leaving.call(line):
            return
        mark, debug = self.mark(), ''.join(DEBUG.findall(line)[-1:])
        self.out += [f'  %{mark} = call i32 @__wathread_leaving(){debug}', f'  %{mark}.is = icmp ne i32 %{mark}, 0{debug}',
                     f'  br i1 %{mark}.is, label %wathread.leave, label %{mark}.on{debug}']
        self.cut(mark + '.on')
        self.left = True

    def fail(self, result, words):
        """In place of a weak compare-exchange."""
        mark, (place, expected, rest), end = self.mark(), split(words)[:3], split(words)[3:]
        kind, debug = expected[:end_of_type(expected + ' ', 0)], ''.join(f', {word}' for word in end if word[:4] == '!dbg')
        align = ''.join(f', {word}' for word in end if word.startswith('align'))
        volatile, place = ('volatile ', place[9:]) if place.startswith('volatile ') else ('', place)
        scope = ''.join(re.findall(r'syncscope\("[^"]*"\) ', rest))
        self.out += [
            f'  %{mark} = call i32 @__wathread_fails(){debug}', f'  %{mark}.is = icmp ne i32 %{mark}, 0{debug}',
            f'  br i1 %{mark}.is, label %{mark}.no, label %{mark}.try{debug}',
            '', f'{mark}.no:',
            f'  %{mark}.seen = load atomic {volatile}{kind}, {place} {scope}{rest.split()[-1]}{align}{debug}',
            f'  br label %{mark}.on{debug}',
            '', f'{mark}.try:',
            f'  %{mark}.tried = cmpxchg weak {volatile}{place}, {expected}, {rest}{align}{debug}',
            f'  %{mark}.was = extractvalue {{ {kind}, i1 }} %{mark}.tried, 0{debug}',
            f'  %{mark}.did = extractvalue {{ {kind}, i1 }} %{mark}.tried, 1{debug}',
            f'  br label %{mark}.on{debug}']
        self.cut(mark + '.on')
        self.out += [
            f'  %{mark}.value = phi {kind} [ %{mark}.seen, %{mark}.no ], [ %{mark}.was, %{mark}.try ]{debug}',
            f'  %{mark}.done = phi i1 [ false, %{mark}.no ], [ %{mark}.did, %{mark}.try ]{debug}',
            f'  %{mark}.half = insertvalue {{ {kind}, i1 }} undef, {kind} %{mark}.value, 0{debug}',
            f'  {result} = insertvalue {{ {kind}, i1 }} %{mark}.half, i1 %{mark}.done, 1{debug}']

    def piece(self, found):
        name = found.group(1)
        if name.startswith('wathread.'):
            return found.group()
        return f', %{self.pieces.get(name if name in self.labels else None, name)} ]'

    def lines(self):
        """All of them. A block without a label is the first one."""
        out = [FROM.sub(self.piece, line) if ' = phi ' in line else line for line in self.out]
        if self.left:
            kind = returned(self.out[0])
            ends = ['  call void @__wathread_call_ends(i32 %wathread.begun)'] * self.exported
            out += ['', 'wathread.leave:', *ends, '  ret void' if kind == 'void' else f'  ret {kind} zeroinitializer']
        return out


def declared(lines, leaving, spurious, exported):
    """The lines of a text, with what the edits call. Nothing is said to never return."""
    out = [NORETURN.sub(r'\1', line) if line[:5] == 'attri' else line for line in lines] if leaving.any else lines
    wanted = ['i32 @__wathread_leaving()'] * leaving.any + ['i32 @__wathread_fails()'] * spurious
    wanted += ['i32 @__wathread_call_begins()', 'void @__wathread_call_ends(i32)'] * exported
    return out + [f'declare {name}' for name in wanted if not any(name[name.index(' @'):name.index('(') + 1] in line for line in lines
                                                                  if line[:3] in ('def', 'dec'))]
