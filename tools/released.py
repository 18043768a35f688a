"""What the tools of the released program share: sums, what is kept of a proof, the manifest, the packing. It is no command."""
import hashlib
import os
import re
import subprocess

import elf_needs

ROOT = os.path.dirname(os.path.dirname(os.path.realpath(__file__)))
PROGRAM = f"{ROOT}/crates/gdc/out/gdc"
# `rt ci` empties the out/ of each crate, so what is kept of a proof lies elsewhere.
VERDICT = f"{ROOT}/out/verdict"
PACKED, MANIFEST = f"{ROOT}/release/gdc.xz", f"{ROOT}/release/MANIFEST"
VERSION_TEXT = f"{ROOT}/crates/gdc_words/src/help.rt"
# The lines of a proof that say what of the C library and the system is trusted, and the verdict.
TRUSTED = ("axioms ", "logic=proved ")
# The processor that the toolchain compiles for where its verdict has no word `cpu=`.
PROCESSOR = "x86-64-v2"


def read(path):
    with open(path, "rb") as file:
        return file.read()


def write(path, data):
    """Writes a file apart and renames it, so that no reader meets half of it."""
    os.makedirs(os.path.dirname(path), exist_ok=True)
    with open(f"{path}.part", "wb") as file:
        file.write(data)
    os.replace(f"{path}.part", path)


def sum_of(data):
    return hashlib.sha256(data).hexdigest()


def source_sum():
    ran = subprocess.run([f"{ROOT}/tools/source_sum"], stdout=subprocess.PIPE, text=True, check=True)
    return ran.stdout.strip()


def toolchain():
    """What `rt version` prints, or None where there is no `rt`."""
    try:
        return subprocess.run(["rt", "version"], stdin=subprocess.DEVNULL, capture_output=True, text=True, check=True).stdout.strip()
    except (OSError, subprocess.CalledProcessError):
        return None


def version():
    """The version that `gdc --version` prints, as the sources have it."""
    return re.search(rb'b"gdc ([0-9.]+)\\n"', read(VERSION_TEXT))[1].decode()


def written(fields):
    return "".join(f"{key}: {value}\n" for key, value in fields).encode()


def fields_of(path):
    """The keys of a file of such lines with their values, of which a key may have several. Of no file it is nothing."""
    found = {}
    if os.path.exists(path):
        for line in read(path).decode().splitlines():
            key, _, value = line.partition(": ")
            found.setdefault(key, []).append(value)
    return found


def keep_verdict(lines, sources):
    """Keeps what a proof said of the program that now lies here, and returns whether it said what is trusted."""
    said = [line.strip() for line in lines if line.startswith(TRUSTED)]
    if not any(line.startswith(TRUSTED[1]) for line in said):
        return False
    fields = [("program-sha256", sum_of(read(PROGRAM))), ("sources-sha256", sources), ("toolchain", toolchain() or "unknown")]
    write(VERDICT, written([*fields, *(("verdict", line) for line in said)]))
    return True


def proved_here(sources):
    """What is kept of the proof of the program that lies here, where that is a proof from these sources, or else nothing."""
    kept = fields_of(VERDICT) if os.path.exists(PROGRAM) else {}
    known = [kept.get("program-sha256"), kept.get("sources-sha256")]
    return kept if kept and known == [[sum_of(read(PROGRAM))], [sources]] else {}


def manifest(program, packed, sources, of_toolchain, verdict):
    """The manifest of a program: which one it is, what it was made from, how it was proved, and what it takes of the system."""
    found = elf_needs.symbols(program)
    cpu = re.search(r" cpu=(\S+)", " ".join(verdict))
    library = elf_needs.newest(found)
    system = [cpu[1] if cpu else PROCESSOR, *([f"glibc {library}"] if library else [])]
    fields = [
        ("version", version()),
        ("program-sha256", sum_of(program)),
        ("program-size", len(program)),
        ("packed-sha256", sum_of(packed)),
        ("sources-sha256", sources),
        ("toolchain", of_toolchain),
        *(("verdict", line) for line in verdict),
        ("system", ", ".join(system)),
        *(("library", name) for name in elf_needs.libraries(program)),
        *(("symbols", f"{name} {at}: {' '.join(symbols)}") for (name, at), symbols in found.items()),
    ]
    return written(fields)


def pack(program):
    """The program packed by xz with fixed settings, so that the same library gives the same bytes."""
    import lzma

    return lzma.compress(program, format=lzma.FORMAT_XZ, check=lzma.CHECK_CRC64, preset=9 | lzma.PRESET_EXTREME)


def unpacked(fields):
    """The program that is released, or None where what lies there is not that of the manifest."""
    import lzma

    try:
        packed = read(PACKED)
        program = lzma.decompress(packed, format=lzma.FORMAT_XZ)
    except (OSError, lzma.LZMAError):
        return None
    sums = {"packed-sha256": [sum_of(packed)], "program-sha256": [sum_of(program)]}
    return program if all(fields.get(key) == sums[key] for key in sums) else None
