"""Masks what narrow compare-exchanges compare with, in an assembly text: of those alone that clang's last steps make of
`atomicrmw nand` and the like, or that an assembly file has. The others are masked before (blocks.py).

The instruction compares whole words: where the expected value has bits above its width, it never matches. clang leaves
them as they come, a signed byte of -1 as 0xFFFFFFFF. The expected value lies below the new one on the stack, so that one
goes into a local of its own meanwhile. Lines of source stay where they are: `.loc` is a line of the text.
"""
import re

EXCHANGE = re.compile(r'\s*(i32|i64)\.atomic\.rmw(8|16|32)\.cmpxchg_u\b')
FUNCTION = re.compile(r'\s*\.functype\s+("[^"]*"|\S+)\s+\(([^)]*)\)\s*->')
LOCALS = re.compile(r'\s*\.local\s+([^#]*)')
LABEL = re.compile(r'("[^"]*"|(?!\.L)[^\s"#]+):')


def types(words):
    return [word.strip() for word in words.split(',') if word.strip()]


def masked(lines):
    """The lines, those of an exchange behind those that mask, on one line with it: so no number of a line changes."""
    out, label, named = [], None, None
    locals_, own, place = [], {}, 0                     # of the function: what it has, what is added, where that is said
    for line in lines:
        found = LABEL.match(line) if ':' in line else None
        if found:
            label = found.group(1)
        if '.' not in line:                             # most lines of a long text
            out.append(line)
            continue
        function = FUNCTION.match(line)
        if function and function.group(1) == label:
            locals_, own, place = types(function.group(2)), {}, len(out)
            named = None
        elif LOCALS.match(line) and not own:
            named, place = types(LOCALS.match(line).group(1)), len(out)
            locals_ = locals_ + named
        exchange = EXCHANGE.match(line)
        if exchange:
            kind, width = exchange.groups()
            if kind not in own:
                own[kind] = len(locals_) + len(own)
                words = '.local ' + ', '.join((named or []) + list(own))
                was = out[place].split('#')[0].rstrip()
                out[place] = '\t' + words if named is not None else was.split(';')[0] + '; ' + words
            line = (f'\tlocal.set {own[kind]}; {kind}.const {(1 << int(width)) - 1}; {kind}.and; '
                    f'local.get {own[kind]}; {line.strip()}')
        out.append(line)
    return out


def declared(text):
    """The text with the types of all its functions in front, which the assembler of version 14 wants before a call, and
    that of the stack pointer, which debug information alone may name."""
    types_ = [line.split(';')[0] for line in text.split('\n') if FUNCTION.match(line)]
    types_ += ['\t.globaltype\t__stack_pointer, i32'] * ('__stack_pointer' in text)
    return '\n'.join([*dict.fromkeys(types_), text])


def mask(text):
    return '\n'.join(masked(text.split('\n'))) if 'cmpxchg_u' in text else text
