"""Compares the texts of words with objdump's, and with the words read back.

    python3 bench/listing/compare.py words > FILE        rows of 2,000 words: every instruction, edge operands, words that are none
    (cd crates/listing_rows && rt try < FILE > ANSWERS)
    python3 bench/listing/compare.py check ANSWERS       the answers against objdump (Debian's binutils-riscv64-linux-gnu)

objdump writes some operands in another way, and these are put into ours: a branch's target is an address, LUI's and AUIPC's field is
hexadecimal, counts of shifts are hexadecimal, and FENCE's sets are letters, so FENCE is compared by its name alone. A word that objdump has
as an instruction of another extension is none to us; where it has one of our names for such a word, that is a difference.
"""
import random
import re
import subprocess
import sys
import tempfile

R = [(f7, f3, 0x33) for f7, f3 in [(0, k) for k in range(8)] + [(32, 0), (32, 5)] + [(1, k) for k in range(8)]]
R += [(f7, f3, 0x3B) for f7, f3 in [(0, 0), (0, 1), (0, 5), (32, 0), (32, 5), (1, 0), (1, 4), (1, 5), (1, 6), (1, 7)]]
EDGES = [0, 1, 2, 0x7FE, 0x7FF, 0x800, 0x801, 0xFFF]


def words():
    """2,000 words, the same each time."""
    rng = random.Random(62)
    reg = lambda: rng.choice([0, 1, 2, 10, 31, rng.randrange(32)])
    out = [0x73, 0x100073, 0, 0xFFFFFFFF]
    for f7, f3, op in R:
        for _ in range(8):
            out.append(f7 << 25 | reg() << 20 | reg() << 15 | f3 << 12 | reg() << 7 | op)
    upper = [(f3, op) for op, f3s in [(0x13, (0, 2, 3, 4, 6, 7)), (0x03, range(7)), (0x67, (0,)), (0x1B, (0,)), (0x0F, (0,)),
                                      (0x23, range(4)), (0x63, (0, 1, 4, 5, 6, 7))] for f3 in f3s]
    for f3, op in upper:
        for imm in EDGES + [rng.randrange(4096) for _ in range(8)]:
            out.append(imm << 20 | reg() << 15 | f3 << 12 | reg() << 7 | op)
    for f3, high in [(1, 0), (5, 0), (5, 16)]:
        for count in [0, 1, 31, 32, 63]:
            out.append(high << 26 | count << 20 | reg() << 15 | f3 << 12 | reg() << 7 | 0x13)
            out.append(high << 26 | count << 20 | reg() << 15 | f3 << 12 | reg() << 7 | 0x1B)
    for op in (0x37, 0x17, 0x6F):
        for field in [0, 1, 0x7FFFF, 0x80000, 0xFFFFF] + [rng.randrange(1 << 20) for _ in range(20)]:
            out.append(field << 12 | reg() << 7 | op)
    while len(out) < 2000:
        out.append(rng.getrandbits(32) if len(out) % 2 else rng.getrandbits(25) << 7 | rng.choice([0x13, 0x33, 0x3B, 0x1B, 0x63, 0x73]))
    return out[:2000]


def dumped(found):
    """objdump's lines: a word and its text, with numbers of registers and no other names."""
    with tempfile.NamedTemporaryFile(suffix=".bin") as f:
        for word in found:
            f.write(word.to_bytes(4, "little"))
        f.flush()
        text = subprocess.run(["riscv64-linux-gnu-objdump", "-D", "-b", "binary", "-m", "riscv:rv64", "-M", "no-aliases,numeric", f.name],
                              capture_output=True, text=True, check=True).stdout
    lines = {}
    for line in text.splitlines():
        m = re.match(r"\s*([0-9a-f]+):\s+([0-9a-f]+)\s+(.*)$", line)
        if m:
            lines[int(m.group(1), 16)] = (int(m.group(2), 16), m.group(3))
    return lines


def ours(at, word, text):
    """objdump's text in our spelling."""
    text = re.sub(r"\s*[#<].*$", "", text).strip()
    name, _, rest = text.partition("\t")
    operands = [x.strip() for x in rest.split(",")] if rest else []
    if name in ("lui", "auipc"):
        operands[1] = str(int(operands[1], 16))
    elif name == "jal" or word & 0x7F == 0x63:
        target = int(operands[-1], 16)
        target -= at
        if target >= 1 << 63:
            target -= 1 << 64
        operands[-1] = str(target)
    elif name in ("slli", "srli", "srai", "slliw", "srliw", "sraiw"):
        operands[2] = str(int(operands[2], 16))
    return name + (" " + ", ".join(operands) if operands else "")


def check(path):
    rows = {}
    for line in open(path):
        m = re.match(r"word ([0-9a-f]{8}) = (.*)$", line)
        if m:
            rows[int(m.group(1), 16)] = m.group(2)
    found = words()
    # words of two bytes, and of six or more, would put objdump out of step: they are none to us, which is looked at below
    shown = [word for word in found if word & 3 == 3 and word & 0x1C != 0x1C]
    places = {word: 4 * k for k, word in enumerate(shown)}
    lines = dumped(shown)
    same = other = none = 0
    bad = []
    for word in found:
        text = rows.get(word)
        at = places.get(word)
        there = lines.get(at)
        if text is None:
            bad.append((hex(word), "no answer"))
        elif text.startswith("word 0x"):
            if text != "word 0x%08x" % word:
                bad.append((hex(word), text))
            none += 1
            # of what objdump takes, these are the only forms that can be ours
            if there and there[0] == word and word & 3 == 3:
                name = there[1].split()[0]
                if name in NAMES:
                    bad.append((hex(word), text, there[1]))
        elif there is None or there[0] != word:
            bad.append((hex(word), text, there))
        elif text.startswith("fence"):
            other += 1
        elif ours(at, word, there[1]) != text:
            bad.append((hex(word), text, ours(at, word, there[1])))
        else:
            same += 1
    print(f"{same} texts alike, {other} of FENCE by name, {none} words that are no instruction, {len(bad)} differ")
    for row in bad[:20]:
        print(*row)
    return 1 if bad else 0


NAMES = set("""lui auipc jal jalr beq bne blt bge bltu bgeu lb lh lw ld lbu lhu lwu sb sh sw sd addi slti sltiu xori ori andi slli srli
srai addiw slliw srliw sraiw add sub sll slt sltu xor srl sra or and mul mulh mulhsu mulhu div divu rem remu addw subw sllw srlw sraw
mulw divw divuw remw remuw ecall ebreak""".split())

if __name__ == "__main__":
    if sys.argv[1:] == ["words"]:
        for word in words():
            print(f"word {word:08x}")
    else:
        sys.exit(check(sys.argv[2]))
