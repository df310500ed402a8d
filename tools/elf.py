"""What a program of x86-64 Linux needs of the machine, read from its file (System V ABI, "Object files" and "Dynamic linking")."""
import re
import struct

LOAD, DYNAMIC = 1, 2
NEEDED, STRING_TABLE, STRING_SIZE = 1, 5, 10


class NoProgram(Exception):
    """Why bytes are no program."""


def segments(file):
    """The segments of a program: type, offset, address and size in the file."""
    if len(file) < 64 or file[:6] != b"\x7fELF\x02\x01" or struct.unpack_from("<H", file, 18)[0] != 62:
        raise NoProgram("it is no program of x86-64 Linux")
    first, size, count = struct.unpack_from("<Q14xHH", file, 32)
    if first + size * count > len(file):
        raise NoProgram("its file is cut off")
    heads = (struct.unpack_from("<IIQQQQ", file, first + size * at) for at in range(count))
    return [(kind, offset, address, length) for kind, _, offset, address, _, length in heads]


def needs(file):
    """The names of the shared libraries that a program needs, and the least version of the GNU C library that has all its symbols; None where it needs none."""
    parts = segments(file)
    entries = [entry for kind, offset, _, length in parts if kind == DYNAMIC for entry in struct.iter_unpack("<qQ", file[offset : offset + length])]
    table = dict(entries)
    if STRING_TABLE not in table:
        return [], None
    at = next(table[STRING_TABLE] - address + offset for kind, offset, address, length in parts if kind == LOAD and 0 <= table[STRING_TABLE] - address < length)
    names = file[at : at + table[STRING_SIZE]]
    libraries = [names[value : names.index(b"\0", value)].decode() for tag, value in entries if tag == NEEDED]
    versions = [tuple(map(int, found[1].split(b"."))) for found in re.finditer(rb"\0GLIBC_([0-9.]+)(?=\0)", names)]
    return libraries, ".".join(map(str, max(versions))) if versions else None
