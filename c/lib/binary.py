"""How modules spell numbers and bytes."""
from files import Refused


class Reader:
    def __init__(self, data, at=0):
        self.data, self.at = data, at

    def byte(self):
        self.at += 1
        return self.data[self.at - 1]

    def little(self, size):
        """A number of so many bytes, the lowest one first."""
        self.at += size
        return int.from_bytes(self.data[self.at - size:self.at], 'little')

    def number(self):
        value = shift = 0
        while True:
            byte = self.byte()
            value |= (byte & 127) << shift
            shift += 7
            if byte < 128:
                return value

    def bytes(self):
        length = self.number()
        self.at += length
        return bytes(self.data[self.at - length:self.at])

    def constant(self):
        """The value of a constant expression `i32.const N; end`."""
        if self.byte() != 0x41:
            raise Refused('a global or a data segment begins with no constant of 32 bits')
        value = self.signed()
        self.byte()
        return value & 0xFFFFFFFF

    def long(self):
        """The bytes of a constant expression `i64.const N; end`."""
        start = self.at
        if self.byte() != 0x42:
            raise Refused('a global begins with no constant')
        self.signed()
        self.byte()
        return bytes(self.data[start:self.at])

    def signed(self):
        """A number with a sign."""
        start = self.at
        value = self.number()
        bits = 7 * (self.at - start)
        return value - (1 << bits) if value >> (bits - 1) & 1 else value

    def more(self):
        return self.at < len(self.data)


def number(value, width=1):
    out = bytearray()
    while value > 127 or len(out) + 1 < width:
        out.append(value & 127 | 128)
        value >>= 7
    return bytes(out) + bytes([value])


def text(data):
    return number(len(data)) + data


def constant(value):
    value = value - (1 << 32) if value >> 31 else value
    out = bytearray(b'\x41')
    while not -64 <= value < 64:
        out.append(value & 127 | 128)
        value >>= 7
    return bytes(out) + bytes([value & 127, 0x0B])
