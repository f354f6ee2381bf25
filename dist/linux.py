"""Which Linux a built program or library runs on, as its own ELF file says it: the processor, and the newest glibc whose symbols it needs."""
import re
import struct
from collections import namedtuple

ELF_64_LITTLE_ENDIAN = b"\x7fELF\x02\x01"
PROCESSORS = {62: "x86_64", 183: "aarch64"}
# Libraries that each Linux with glibc has; PEP 600 lets a wheel need these.
EVERYWHERE = {"libc.so.6", "libm.so.6", "libpthread.so.0", "libdl.so.2", "librt.so.1", "libgcc_s.so.1", "ld-linux-x86-64.so.2", "ld-linux-aarch64.so.1"}
OLDEST_GLIBC = (2, 17)
DYNAMIC, VERSIONS_NEEDED = 6, 0x6FFFFFFE
LIBRARY_NEEDED = 1

Section = namedtuple("Section", "kind start size strings")


class Strange(Exception):
    """A file of which nobody can say which Linux runs it."""


def sections(data):
    """The sections of an ELF file."""
    if not data.startswith(ELF_64_LITTLE_ENDIAN):
        raise Strange("is no ELF file of 64 bits, little endian")
    (start,), (size, count) = struct.unpack_from("<Q", data, 40), struct.unpack_from("<HH", data, 58)
    return [Section._make(struct.unpack_from("<4xI16xQQI", data, start + number * size)) for number in range(count)]


def processor(data):
    """The name of the processor, as it stands in a tag."""
    (number,) = struct.unpack_from("<H", data, 18)
    if number not in PROCESSORS:
        raise Strange(f"is for processor {number}, which is none of {', '.join(PROCESSORS.values())}")
    return PROCESSORS[number]


def text_at(data, start):
    return data[start:data.index(b"\0", start)].decode("ascii")


def libraries(data):
    """The shared libraries that it needs, by name."""
    found, every = [], sections(data)
    for part in every:
        if part.kind == DYNAMIC:
            entries = struct.iter_unpack("<QQ", data[part.start:part.start + part.size])
            found += [text_at(data, every[part.strings].start + value) for tag, value in entries if tag == LIBRARY_NEEDED]
    return found


def chained(data, start, form):
    """Records, whose last field says how far behind each the next one stands, or 0: where each begins, and its fields."""
    step = None
    while step != 0:
        fields = struct.unpack_from(form, data, start)
        yield start, fields
        step = fields[-1]
        start += step


def versions(data):
    """The versions of symbols that it needs, each with its library."""
    found, every = [], sections(data)
    for part in every:
        if part.kind == VERSIONS_NEEDED:
            names = every[part.strings].start
            for start, (_, _, library, first, _) in chained(data, part.start, "<HHIII"):
                found += [(text_at(data, names + library), text_at(data, names + name)) for _, (_, _, _, name, _) in chained(data, start + first, "<IHHII")]
    return found


def glibc(data):
    """The oldest glibc that has all that it needs."""
    strange = sorted(set(libraries(data)) - EVERYWHERE)
    if strange:
        raise Strange(f"needs {', '.join(strange)}, which not every Linux has")
    newest = OLDEST_GLIBC
    for library, version in versions(data):
        number = re.fullmatch(r"GLIBC_(\d+)\.(\d+)(?:\.\d+)?", version)
        if number:
            newest = max(newest, (int(number[1]), int(number[2])))
        elif library != "libgcc_s.so.1":
            raise Strange(f"needs {version} of {library}, which is no version of glibc")
    return newest


def tag(files):
    """The tag of a wheel with these built files, the bytes of each by its name (PEP 600); pip refuses it where glibc is older, and where there is none.

    `Strange` says which file is no program or library for Linux with glibc on one of PROCESSORS, and why.
    """
    found = set()
    for name, data in files.items():
        try:
            if "libc.so.6" not in libraries(data):
                raise Strange("does not need glibc, so it does not say which one it runs on")
            found.add((processor(data), glibc(data)))
        except Strange as why:
            raise Strange(f"{name} {why}") from None
        except (struct.error, ValueError, IndexError, OverflowError):
            raise Strange(f"{name} is a broken ELF file") from None
    processors = {name for name, _ in found}
    if len(processors) != 1:
        raise Strange(f"{', '.join(files)} are for different processors")
    major, minor = max(version for _, version in found)
    return f"manylinux_{major}_{minor}_{processors.pop()}"
