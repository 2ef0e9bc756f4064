#!/usr/bin/env python3
"""Writes the image of one function without parameters, as docs/IMAGE.md says, to standard output.

    python3 examples/image.py NAME RESULT WORD.. [ADDRESS:SIGNATURE..]

NAME is its name, RESULT the type code of its result, and the words are its instructions. Behind them may stand entries, functions that are
values: then the image is one of version 2. So examples/five.elf was made:

    python3 examples/image.py five 3 0x00500513 0x00008067 > examples/five.elf
"""

import struct
import sys

TEXT, REGION, PRIVATE = 0x10000, 0x40000000, 0x100000000
MEMORY, PRIVATE_SIZE = 1_048_576, 8_192


def segment(flags, offset, address, in_file, in_memory):
    return struct.pack("<IIQQQQQQ", 1, flags, offset, address, address, in_file, in_memory, 1)


def section(name, kind, flags, address, offset, size, link=0, info=0, entry=0):
    return struct.pack("<IIQQQQIIQQ", name, kind, flags, address, offset, size, link, info, 1, entry)


def image(name, result, words, entries=()):
    text = struct.pack(f"<{len(words)}I", *words)
    entered = b"".join(struct.pack("<QQ", *entry) for entry in entries)
    text_at = 64 + 3 * 56
    entries_at = statics_at = text_at + len(text)
    terra_at = entries_at + len(entered)
    terra = struct.pack("<IIQQQ", 2 if entries else 1, 1, MEMORY, REGION, PRIVATE_SIZE)
    terra += struct.pack("<Q8sBBHI", TEXT, b"", 0, result, 0, 36)
    symtab_at = terra_at + len(terra)
    symtab = bytes(24) + struct.pack("<IBBHQQ", 36, 0x12, 0, 1, TEXT, 0)
    strtab_at = symtab_at + len(symtab)
    strtab = b"\0.text\0.data\0.terra\0.symtab\0.strtab\0" + name + b"\0"
    sections_at = strtab_at + len(strtab)

    header = b"\x7fELF" + bytes([2, 1, 1]) + bytes(9)
    header += struct.pack("<HHIQQQIHHHHHH", 2, 243, 1, 0, 64, sections_at, 0, 64, 56, 3, 64, 6, 5)
    segments = segment(5, text_at, TEXT, len(text), len(text))
    segments += segment(6, statics_at, REGION, 0, MEMORY)
    segments += segment(6, entries_at, PRIVATE, len(entered), len(entered) + PRIVATE_SIZE)
    sections = bytes(64)
    sections += section(1, 1, 6, TEXT, text_at, len(text))
    sections += section(7, 1, 3, REGION, statics_at, 0)
    sections += section(13, 1, 0, 0, terra_at, len(terra))
    sections += section(20, 2, 0, 0, symtab_at, len(symtab), 5, 1, 24)
    sections += section(28, 3, 0, 0, strtab_at, len(strtab))
    return header + segments + text + entered + terra + symtab + strtab + sections


if __name__ == "__main__":
    name, result, *rest = sys.argv[1:]
    words = [int(word, 0) for word in rest if ":" not in word]
    entries = [[int(number, 0) for number in word.split(":")] for word in rest if ":" in word]
    sys.stdout.buffer.write(image(name.encode(), int(result), words, entries))
