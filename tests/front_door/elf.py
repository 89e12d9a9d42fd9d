"""What a test wants to know of a program or a shared library for Linux on
x86-64: its name, what it exports, and whether its stack can be executed."""

import struct
from pathlib import Path

STACK, EXECUTABLE = 0x6474E551, 1       # PT_GNU_STACK, PF_X
DYNAMIC, DYNSYM = 6, 11                 # sections: SHT_DYNAMIC, SHT_DYNSYM
SONAME = 14                             # DT_SONAME


class Elf:
    def __init__(self, path):
        self.data = Path(path).read_bytes()
        (self.segments_at, sections_at, self.segment, self.segments, section,
         sections) = struct.unpack_from("<QQ6x4H", self.data, 32)
        self.sections = [
            struct.unpack_from("<IIQQQQIIQQ", self.data,
                               sections_at + place * section)
            for place in range(sections)]

    def text(self, at):
        return self.data[at:self.data.index(b"\0", at)].decode()

    def executable_stack(self):
        """Also where nothing is said of it."""
        flags = [struct.unpack_from("<II", self.data, at)[1]
                 for at in range(self.segments_at, self.segments_at
                                 + self.segments * self.segment, self.segment)
                 if struct.unpack_from("<I", self.data, at)[0] == STACK]
        return not flags or bool(flags[0] & EXECUTABLE)

    def of_kind(self, kind):
        """The entries of a section of this kind, and where its strings are."""
        for section in self.sections:
            if section[1] == kind:
                at, size, link, entry = (section[4], section[5], section[6],
                                         section[9])
                yield from ((place, self.sections[link][4])
                            for place in range(at, at + size, entry))

    def soname(self):
        for at, strings in self.of_kind(DYNAMIC):
            tag, value = struct.unpack_from("<QQ", self.data, at)
            if tag == SONAME:
                return self.text(strings + value)
        return None

    def exports(self):
        """Functions and data that others may use."""
        found = set()
        for at, strings in self.of_kind(DYNSYM):
            name, kind, _, section = struct.unpack_from("<IBBH", self.data, at)
            if section and kind & 15 in (1, 2):
                found.add(self.text(strings + name))
        return found
