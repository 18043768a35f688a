"""Reads what a program for Linux takes of shared libraries; it is no command."""
import struct
from collections import defaultdict

# The types of sections that are read here, and the tag of an entry that names a library.
DYNAMIC, DYNAMIC_SYMBOLS, NEEDED_VERSIONS, VERSIONS = 6, 11, 0x6FFFFFFE, 0x6FFFFFFF
NEEDED = 1


def is_elf(data):
    """Whether it is an ELF file of 64 bits, the least byte first."""
    return data[:6] == b"\x7fELF\x02\x01"


def sections(data):
    """The type of each section, where it begins, its size, and the numbers of another section and of entries that it names."""
    (start,) = struct.unpack_from("<Q", data, 40)
    size, count = struct.unpack_from("<HH", data, 58)
    rows = [struct.unpack_from("<IIQQQQIIQQ", data, start + number * size) for number in range(count)]
    return [(kind, at, length, link, info) for _, kind, _, _, at, length, link, info, _, _ in rows]


def section(parts, wanted):
    """The one section of a type, or None: where it begins, its size, where the names begin that it refers to, and how many entries it has."""
    for kind, at, length, link, info in parts:
        if kind == wanted:
            return at, length, parts[link][1], info
    return None


def text_at(data, at):
    return data[at : data.index(b"\0", at)].decode()


def libraries(data):
    """The shared libraries that the program asks for, in its order."""
    found = section(sections(data), DYNAMIC) if is_elf(data) else None
    if not found:
        return []
    at, length, names, _ = found
    entries = [struct.unpack_from("<QQ", data, at + place) for place in range(0, length, 16)]
    return [text_at(data, names + value) for tag, value in entries if tag == NEEDED]


def versions(data, parts):
    """The library and the name of each version that the program asks for, by its number."""
    at, _, names, count = section(parts, NEEDED_VERSIONS) or (0, 0, 0, 0)
    found = {}
    for _ in range(count):
        _, entries, file, entry, step = struct.unpack_from("<HHIII", data, at)
        place = at + entry
        for _ in range(entries):
            _, _, number, name, further = struct.unpack_from("<IHHII", data, place)
            found[number] = text_at(data, names + file), text_at(data, names + name)
            place += further
        at += step
    return found


def symbols(data):
    """What the program takes of each library at each version, in order. Of what is no such file it is nothing."""
    parts = sections(data) if is_elf(data) else []
    known = versions(data, parts)
    if not known:
        return {}
    at, length, names, _ = section(parts, DYNAMIC_SYMBOLS)
    numbers = section(parts, VERSIONS)[0]
    found = defaultdict(set)
    for place in range(length // 24):
        name, _, _, home = struct.unpack_from("<IBBH", data, at + 24 * place)
        (number,) = struct.unpack_from("<H", data, numbers + 2 * place)
        if home == 0 and number in known:
            found[known[number]].add(text_at(data, names + name))
    return {key: sorted(found[key]) for key in sorted(found, key=lambda key: (key[0], numbers_of(key[1])))}


def numbers_of(version):
    """The numbers of a version's name, as 2 and 34 of GLIBC_2.34, by which versions are in order."""
    return [int(part) for part in version.rpartition("_")[2].split(".") if part.isdigit()]


def newest(found, begin="GLIBC_"):
    """The newest version of the C library that the program asks for, or None."""
    asked = [version for _, version in found if version.startswith(begin)]
    return max(asked, key=numbers_of).removeprefix(begin) if asked else None
