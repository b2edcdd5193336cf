"""What a linked file asks of glibc, and what it shows to others, as binutils read it."""
import re
import subprocess


def dynamic_symbols(path):
    return subprocess.run(["objdump", "-T", path], check=True, capture_output=True, text=True).stdout


def newest_glibc(path):
    """The newest version of glibc's symbols that a file takes, as '2.14'."""
    found = re.findall(r"GLIBC_(\d+)\.(\d+)", dynamic_symbols(path))
    return ".".join(map(str, max((int(major), int(minor)) for major, minor in found)))


def newer_instructions(path):
    """The instructions in a file, of those that vectors and JSON are written with, that the first x86-64 hadn't."""
    code = subprocess.run(["objdump", "-d", "--no-show-raw-insn", path], check=True, capture_output=True, text=True)
    newer = r"\t(pshufb|palignr|p?test[zc]?ps|ptest|pinsr[bdq]|pextr[bdq]|popcnt|pcmpgtq|crc32\w?|blendv?p[sd]|v[a-z]\w+)\s"
    return sorted(set(re.findall(newer, code.stdout)) - {"verr", "verw"})


def exported(path):
    """The names that a file shows, in their order."""
    rows = (line.split() for line in dynamic_symbols(path).splitlines())
    return sorted(row[-1] for row in rows if len(row) > 5 and "*UND*" not in row and row[1] in ("g", "w"))
