"""What the linker says, by the sources that objects were made of: a line for each symbol, and where it is used."""
import os
import re

from blocks import NAME
from sites import Sites

ERROR = re.compile(r'\S*wasm-ld\S*: (?:error|warning): (.*)')
UNDEFINED = re.compile(r'(.*): undefined symbol: (.*)')
DEBUG = re.compile(r'!dbg !\d+')
DEFINE = re.compile(rf'define .*?@({NAME})\(')


class Objects:
    """The sources of objects, and the LLVM texts that some of these were made of."""

    def __init__(self, folder):
        self.folder, self.sources, self.texts = folder, {}, {}

    def add(self, made, source, text=None):
        self.sources[made], self.texts[made] = source, text

    def named(self, line):
        """A line with sources in place of objects."""
        for made, source in self.sources.items():
            line = line.replace(made, source)
        return line.replace(os.path.join(self.folder, 'library.o'), "wathread-cc's own library")

    def user(self, made, symbol):
        """Which function of an object's source uses a symbol, and in which line, where its text shows that."""
        if not self.texts.get(made):
            return ''
        with open(self.texts[made], encoding='utf-8', errors='surrogateescape') as file:
            lines = file.read().split('\n')
        use, function = re.compile(rf'@{re.escape(symbol)}(?![-\w$.])|@"{re.escape(symbol)}"'), None
        for line in lines:
            defined = DEFINE.match(line)
            function = None if line == '}' else defined[1] if defined else function
            if function and line.startswith('  ') and use.search(line.split(' = ')[-1]):
                debug = DEBUG.search(line)
                place = Sites(lines, False).place(debug[0]) if debug else b''
                return self.where(function, place, os.path.basename(self.sources[made]))
        return ''

    def where(self, function, place, source):
        file, _, line = os.fsdecode(place).rpartition(':')
        function = function.strip('"').replace('__original_main', 'main')
        place = f'line {line}' if file == source else f'{file}:{line}'
        return f', used in {function}' + (f', {place}' if line else '')

    def undefined(self, found):
        """The lines of undefined symbols, by pairs of object and symbol."""
        for symbol in dict.fromkeys(symbol for _, symbol in found):
            users = [made for made, other in found if other == symbol]
            yield (', '.join(dict.fromkeys(self.named(made) for made in users)) +
                   f': undefined symbol: {symbol}{self.user(users[0], symbol)}')

    def told(self, said):
        """The lines that stand for what the linker said: all that it has to say of a symbol in one."""
        out, found = [], []
        for line in filter(None, said.split('\n')):
            error = ERROR.match(line)
            missing = error and UNDEFINED.match(error[1])
            if missing:
                found.append(missing.groups())
            elif line.startswith('>>> ') and out:
                out[-1] += (' and ' if out[-1].count(': ') > 2 else ': ') + self.named(line[4:])
            else:
                out.append('wathread-cc: ' + self.named(error[1]) if error else self.named(line))
        return out + ['wathread-cc: ' + line for line in self.undefined(found)]
