"""What an object file says of itself: its code, what its functions take of the stack, whom they call. ELF, low byte first.

It has to be compiled with -ffunction-sections and -fstack-size-section: each function is then a section of its own, beside it stands what the
compiler says of its stack, and a call of another function is a relocation.
"""
import struct
from typing import NamedTuple

SYMBOLS, WITH_ADDENDS, WITHOUT_DATA, RELOCATIONS = 2, 4, 8, 9  # types of sections
WRITTEN, LOADED, EXECUTED = 1, 2, 4  # flags of sections
FUNCTION, GLOBAL = 2, 1  # a symbol's type and its binding
ELSEWHERE = 0  # the section of a symbol that another file has


class Section(NamedTuple):
    name: str
    type: int
    flags: int
    size: int
    link: int
    info: int
    data: bytes


class Symbol(NamedTuple):
    name: str
    type: int
    binding: int
    section: int
    size: int


def text(table, at):
    return table[at:table.index(b"\0", at)].decode()


def uleb128(data):
    """A number in sevens of bits, low ones first."""
    value = 0
    for place, byte in enumerate(data):
        value |= (byte & 127) << 7 * place
        if byte < 128:
            return value
    raise ValueError("a number without an end")


class Object:
    def __init__(self, data):
        if data[:4] != b"\x7fELF" or data[5] != 1:
            raise ValueError("no ELF object with the low byte first")
        self.wide = data[4] == 2  # addresses of 64 bits
        head = struct.unpack_from("<HHIQQQIHHHHHH" if self.wide else "<HHIIIIIHHHHHH", data, 16)
        start, size, count, names = head[5], head[10], head[11], head[12]
        heads = [struct.unpack_from("<IIQQQQIIQQ" if self.wide else "<IIIIIIIIII", data, start + i * size) for i in range(count)]
        held = [b"" if part[1] == WITHOUT_DATA else data[part[4]:part[4] + part[5]] for part in heads]
        self.sections = [Section(text(held[names], part[0]), part[1], part[2], part[5], part[6], part[7], its) for part, its in zip(heads, held)]
        self.symbols = [symbol for section in self.sections if section.type == SYMBOLS for symbol in self._symbols(section)]

    def _symbols(self, table):
        names = self.sections[table.link].data
        for entry in struct.iter_unpack("<IBBHQQ" if self.wide else "<IIIBBH", table.data):
            name, info, section, size = (entry[0], entry[1], entry[3], entry[5]) if self.wide else (entry[0], entry[3], entry[5], entry[2])
            yield Symbol(text(names, name), info & 15, info >> 4, section, size)

    def _relocations(self, section):
        """The numbers of the symbols that a section of relocations names."""
        form = ("<QQq" if self.wide else "<IIi") if section.type == WITH_ADDENDS else "<QQ" if self.wide else "<II"
        return {entry[1] >> (32 if self.wide else 8) for entry in struct.iter_unpack(form, section.data)}

    def size(self, wanted, without=0):
        """The bytes of the sections that have the wanted flags and none of the others."""
        return sum(part.size for part in self.sections if part.flags & wanted == wanted and not part.flags & without)

    def outside(self):
        """The names of what it uses and does not have."""
        return {symbol.name for symbol in self.symbols if symbol.section == ELSEWHERE and symbol.name}

    def doors(self):
        """The functions that others can call: name and section."""
        return {symbol.name: symbol.section for symbol in self.symbols if symbol.type == FUNCTION and symbol.binding == GLOBAL and symbol.section}

    def frames(self):
        """What the function of each section takes of the stack, as the compiler says: an address, and then the number."""
        return {part.link: uleb128(part.data[8 if self.wide else 4:]) for part in self.sections if part.name == ".stack_sizes"}

    def calls(self):
        """Of each section of code, the other ones that it names."""
        found = {number: set() for number, part in enumerate(self.sections) if part.flags & EXECUTED and part.size}
        for part in self.sections:
            if part.type in (WITH_ADDENDS, RELOCATIONS) and part.info in found:
                named = {self.symbols[number].section for number in self._relocations(part)}
                found[part.info] |= {number for number in named if number in found and number != part.info}
        return found

    def stacks(self):
        """What each door takes of the stack: its own frame and those along the calls. What is called from outside is not in it."""
        frames, calls, known = self.frames(), self.calls(), {}

        def deepest(section):
            if section not in known:
                known[section] = frames[section] + max(map(deepest, calls[section]), default=0)
            return known[section]

        return {name: deepest(section) for name, section in self.doors().items()}
