"""rust.py CRATE.s: edits what rustc made of a crate, for wathread-rustc, so that clang makes an object of it with its
narrow compare-exchanges masked (masks.py), and says by status 0 that there are any; else the text stays, and the status
is 3.

rustc's text lacks what clang's assembler wants: the types of functions in front of their calls, also of those that stand
for another one and of those that LLVM itself calls.
"""
import re
import sys

sys.dont_write_bytecode = True
from masks import EXCHANGE, declared  # noqa: E402

MARK = '# of wathread-rustc\n'                          # by which compile.py knows such a text
NAMED = r'("[^"\n]*"|[\w.$]+)'
TYPE = re.compile(rf'^\s*\.functype\s+{NAMED} (\(.*)$', re.M)
ALIAS = re.compile(rf'^\s*(?:\.set\s+{NAMED}\s*,|{NAMED}\s*=)\s*{NAMED}$', re.M)
CALL = re.compile(rf'^\s*call\s+{NAMED}$', re.M)
SIZE = re.compile(r'^\s*\.size\s+.*, \.Lfunc_end.*$', re.M)
INSTRUCTION = re.compile(r'[ \t]+([a-z]\S*)[ \t]*(\S*)')
OF_LLVM = {'__muloti4': '(i32, i64, i64, i64, i64, i32) -> ()', **dict.fromkeys(('__ashlti3', '__ashrti3', '__lshrti3'),
                                                                               '(i32, i64, i64, i32) -> ()')}


def of_llvm(name):
    """The type of a function that LLVM calls by itself: of bytes, or of numbers of 128 bits."""
    if name.startswith('mem'):
        return '(i32, i32, i32) -> (i32)'
    return OF_LLVM.get(name, '(i32, i64, i64, i64, i64) -> ()')


def undeclared(text):
    """The types that the text doesn't have, of functions that it has or calls."""
    types = dict(TYPE.findall(text))
    more = {}
    for first, second, other in ALIAS.findall(text):
        if other in types:
            more[first or second] = types[other]
    for name in CALL.findall(text):
        if name not in types and name not in more:
            more[name] = of_llvm(name)
    return ''.join(f'\t.functype\t{name} {type_}\n' for name, type_ in more.items())


def with_ends(lines):
    """The lines, with a value in front of the end of each loop that has one and never ends: version 14 wants it."""
    out, kinds, last = [], [], ''
    for line in lines:
        found = INSTRUCTION.match(line)
        if found:
            word, kind = found.groups()
            if word in ('block', 'loop', 'if', 'try'):
                kinds.append(kind)
            elif word.startswith('end_') and kinds:
                kind = kinds.pop()
                if word == 'end_loop' and last == 'br' and kind in ('i32', 'i64'):
                    line = f'\t{kind}.const\t0; {line.strip()}'
            last = word
        out.append(line)
    return out


def edit(text):
    """The text as clang takes it."""
    return MARK + undeclared(text) + declared('\n'.join(with_ends(SIZE.sub('', text).split('\n'))))


def main(path):
    with open(path, encoding='utf-8', errors='surrogateescape') as file:
        text = file.read()
    if not re.search(EXCHANGE.pattern, text, re.M):
        return 3
    with open(path, 'w', encoding='utf-8', errors='surrogateescape') as file:
        file.write(edit(text))
    return 0


if __name__ == '__main__':
    sys.exit(main(*sys.argv[1:]))
