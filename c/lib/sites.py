"""Where accesses are in the source, and what their variables are called, by the debug information of a LLVM text: what the
runtime of memory orders says has both (orders_says.h). A site is a constant of two texts, `mp.c:13` and `queue.tail`, each
with zeros behind it up to a whole number of 8 bytes, at least one. There is one for each line and variable; the second text
is empty where the compiler knows no name: it does so of static variables, and of members at constant places.
"""
import re

from blocks import NAME, end_of_type, split

NODE = re.compile(r'(!\d+) = (?:distinct )?!(?:(\w+)\()?(.*)[)}]$')
FIELD = re.compile(r'(\w+): ("[^"]*"|[^,"]+)')
DESCRIBED = re.compile(rf'(@{NAME}) = .*, !dbg (!\d+)')
STRUCTURE = re.compile(rf'(%{NAME}) = type (<?\{{ .* \}}>?)$')
INDEXED = re.compile(r'getelementptr (?:\w+ )*\((.*)\)$')
CAST = re.compile(rf'bitcast \((.*) to [^()]*\)$')
ARRAY = re.compile(r'\[(\d+) x (.*)\]$')
MOST_LETTERS = 60                                       # of a name, or of a file's


def unescaped(text):
    """The bytes of a string, without what would end a line."""
    data = re.sub(rb'\\(\\|[0-9A-Fa-f]{2})', lambda m: b'\\' if m[1] == b'\\' else bytes([int(m[1], 16)]),
                  text.strip('"').encode('utf-8', 'surrogateescape'))
    return bytes(byte if byte >= 32 and byte != 127 else ord('?') for byte in data)


def padded(data):
    return data + bytes(8 - len(data) % 8)


class Layout:
    """Where the members of LLVM's types lie, in a memory of 32 bits."""

    def __init__(self, lines):
        self.types = {found[1]: found[2] for line in lines if (found := STRUCTURE.match(line))}

    def members(self, kind):
        """The types of a structure's members, and whether there is no room between these; none of another type."""
        kind = self.types.get(kind, kind)
        packed = kind.startswith('<{')
        inside = kind[2:-2] if packed else kind[1:-1]
        return (split(inside.strip()) if kind.startswith(('{', '<{')) else []), packed

    def size(self, kind):
        """How many bytes a type has, and what its addresses are multiples of."""
        array, whole = ARRAY.match(kind), re.match(r'i(\d+)$', kind)
        if array:
            size, align = self.size(array[2])
            return int(array[1]) * size, align
        if whole:
            size = max(int(whole[1]) // 8, 1)
            return size, min(size, 16)
        members, packed = self.members(kind)
        if not members:
            return 4, 4
        align = 1 if packed else max(self.size(member)[1] for member in members)
        return -(-self.place(kind, len(members)) // align) * align, align

    def place(self, kind, index):
        """Where a member begins, or the last one ends."""
        members, packed = self.members(kind)
        at = 0
        for i, member in enumerate(members):
            size, align = self.size(member)
            at = at if packed else -(-at // align) * align
            if i == index:
                return at
            at += size
        return at

    def variable(self, operand):
        """The variable that a constant address is in, and how many bytes behind its start; or None."""
        value = operand[end_of_type(operand, 0) + 1:] if not operand.startswith('@') else operand
        indexed, cast = INDEXED.match(value), CAST.match(value)
        if re.fullmatch(f'@{NAME}', value):
            return value, 0
        if cast:
            return self.variable(cast[1])
        if not indexed:
            return None
        kind, base, *indices = split(indexed[1])
        found, numbers = self.variable(base), [index.split(' ')[-1] for index in indices]
        if not found or not all(re.fullmatch(r'\d+', number) for number in numbers):
            return None
        at, (first, *rest) = found[1], map(int, numbers)
        at += first * self.size(kind)[0]
        for number in rest:
            array = ARRAY.match(kind)
            at += number * self.size(array[2])[0] if array else self.place(kind, number)
            kind = array[2] if array else self.members(kind)[0][number]
        return found[0], at


class Sites:
    """The sites of a text: `at` gives one, and `lines` are those of the constants."""

    def __init__(self, lines, typed):
        self.typed = typed
        self.nodes = {found[1]: (found[2], found[3]) for line in lines if (found := NODE.match(line))}
        self.described = {found[1]: found[2] for line in lines if (found := DESCRIBED.match(line))}
        self.layout, self.numbers, self.places = Layout(lines), {}, {}

    def field(self, node, name):
        return next((value for key, value in FIELD.findall(self.nodes.get(node, ('', ''))[1]) if key == name), '')

    def size_of(self, kind):
        """How many bytes a type has, by the debug information."""
        while kind and not self.field(kind, 'size'):
            kind = self.field(kind, 'baseType')
        return int(self.field(kind, 'size') or 0) // 8

    def path(self, kind, at):
        """What stands behind the name of a variable of this type, for a place in it."""
        tag = self.field(kind, 'tag')
        if tag == 'DW_TAG_array_type':
            return self.element(kind, at)
        if tag not in ('DW_TAG_structure_type', 'DW_TAG_union_type', 'DW_TAG_class_type'):
            follows = tag in ('DW_TAG_typedef', 'DW_TAG_atomic_type', 'DW_TAG_const_type', 'DW_TAG_volatile_type')
            return self.path(self.field(kind, 'baseType'), at) if follows else ''
        for member in re.findall(r'!\d+', self.nodes.get(self.field(kind, 'elements'), ('', ''))[1]):
            base, first = self.field(member, 'baseType'), int(self.field(member, 'offset') or 0) // 8
            if self.field(member, 'tag') in ('DW_TAG_member', 'DW_TAG_inheritance') and \
                    'DIFlagStaticMember' not in self.field(member, 'flags') and 0 <= at - first < self.size_of(base):
                name = self.field(member, 'name').strip('"')
                return ('.' + name if name else '') + self.path(base, at - first)
        return ''

    def element(self, kind, at):
        base, counts = self.field(kind, 'baseType'), re.findall(r'!\d+', self.nodes[self.field(kind, 'elements')][1])
        size, text = self.size_of(base), ''
        for i in range(len(counts)):
            inner = size
            for count in counts[i + 1:]:
                inner *= int(self.field(count, 'count') or 0)
            if not inner:
                return ''
            text += f'[{at // inner}]'
            at %= inner
        return text + self.path(base, at)

    def name(self, operand):
        """What the source calls what lies at a constant address."""
        found = self.layout.variable(operand)
        variable = self.field(self.described.get(found[0], ''), 'var') if found else ''
        name = self.field(variable, 'name')
        return unescaped(name.strip('"') + self.path(self.field(variable, 'type'), found[1])) if name else b''

    def place(self, debug):
        """A file and a line, by what is behind an instruction."""
        if debug not in self.places:
            at = debug.rsplit(' ', 1)[-1]
            line, scope = self.field(at, 'line'), self.field(at, 'scope')
            file = unescaped(self.field(self.field(scope, 'file'), 'filename')).rsplit(b'/', 1)[-1]
            self.places[debug] = file[-MOST_LETTERS:] + b':' + line.encode() if file and line not in ('', '0') else b''
        return self.places[debug]

    def at(self, operand, debug):
        """The number of a site, as an argument; 0 where nothing is known. Of a call there is no operand."""
        place = self.place(debug) if debug else b''
        data = padded(place) + padded(self.name(operand)[:MOST_LETTERS] if operand else b'') if place else b''
        if not data:
            return 'i32 0'
        kind = f'[{len(data)} x i8]*' if self.typed else 'ptr'
        return f'i32 ptrtoint ({kind} @wathread.site.{self.numbers.setdefault(data, len(self.numbers))} to i32)'

    def lines(self):
        return [f'@wathread.site.{number} = internal constant [{len(data)} x i8] c"' +
                ''.join(f'\\{byte:02X}' if byte in b'"\\' or not 32 <= byte < 127 else chr(byte) for byte in data) +
                '", align 8' for data, number in self.numbers.items()]
