"""What a script needs and isn't there, in a line for each, before it does anything.

A script in Python calls `needs(NAME..)`, one of the shell `python3 bench/needs.py SCRIPT NAME.. || exit 2`. A name is a command, or the
path of a program that is built.
"""
import os
import shutil
import sys

HAS = {
    "cc": "Debian's gcc",
    "lua5.1": "Debian's lua5.1",
    "qemu-riscv64": "Debian's qemu-user",
    "riscv64-linux-gnu-gcc": "Debian's gcc-riscv64-linux-gnu",
    "riscv64-linux-gnu-objdump": "Debian's binutils-riscv64-linux-gnu",
    "riscv64-linux-gnu-readelf": "Debian's binutils-riscv64-linux-gnu",
    "rt": "Rattle's toolchain (README.md)",
    "/usr/bin/time": "Debian's time",
    "valgrind": "Debian's valgrind",
}


def where(name):
    """Where what is missing comes from."""
    if name in HAS:
        return f"{HAS[name]} has it"
    crate = os.path.basename(name)
    if crate == "terrac":
        return "bin/terrac builds it, and PROGRAM names another"
    return f"`rt run <stdin` in crates/{crate} builds it" if f"crates/{crate}/out/" in name else "it was named to this script"


def needs(*names, script=os.path.basename(sys.argv[0])):
    """Ends the script with status 2 where something is missing."""
    missing = [name for name in names if not shutil.which(name)]
    for name in missing:
        print(f"{script}: {name} is missing: {where(name)}", file=sys.stderr)
    if missing:
        sys.exit(2)


if __name__ == "__main__":
    needs(*sys.argv[2:], script=sys.argv[1])
