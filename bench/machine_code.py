"""Machine code of typed terms: the program of `straight_program` over rows, and a machine of its own that runs words one at a time.

The program isn't proved: it calls `compile` of terms that it makes itself, of which nothing says that they are typed. `rt try` builds it,
with tests in place of proofs, beside copies of the crates that it stands on.
"""
import os
import re
import shutil
import subprocess
import sys
import tempfile

TOP = os.path.dirname(os.path.dirname(os.path.realpath(__file__)))
SHARED = ("adding", "building", "doing", "operations", "weights")


def below(lines, name):
    """The crates of the repository that a crate stands on, and itself, lowest first."""
    found = []
    for n in lines[name]:
        for it in below(lines, n) if n in lines else []:
            if it not in found:
                found.append(it)
    return found + [name]


def repository(room):
    """A repository of the program and the crates that it stands on. Where the program stands."""
    with open(f"{TOP}/crates.txt", encoding="utf-8") as it:
        lines = {l.split(":")[0].strip(): l.split(":")[1].split() for l in it if ":" in l and not l.startswith("#")}
    names = below(lines, "back_end") + ["row_words"]
    os.makedirs(f"{room}/crates/straight/src")
    shutil.copy(f"{TOP}/HANDLES", room)
    for name in names:
        for part in ("src", "specs", "proofs"):
            if os.path.isdir(f"{TOP}/crates/{name}/{part}"):
                shutil.copytree(f"{TOP}/crates/{name}/{part}", f"{room}/crates/{name}/{part}")
    with open(f"{room}/crates.txt", "w", encoding="utf-8") as it:
        it.writelines(f"{name}: {' '.join(lines[name])}\n" for name in names)
        it.write(f"straight: {' '.join(names)} anyhow\n")
    for name in SHARED:
        shutil.copy(f"{TOP}/crates/meaning_rows/src/{name}.rt", f"{room}/crates/straight/src")
    for name in ("main", "running"):
        shutil.copy(f"{TOP}/bench/straight_program/src/{name}.rt.in", f"{room}/crates/straight/src/{name}.rt")
    return f"{room}/crates/straight"


def answers(cases, seconds=600):
    """What the program writes of each text of rows, by the names of the cases."""
    room = tempfile.mkdtemp()
    try:
        folder = repository(f"{room}/repository")
        os.makedirs(f"{room}/cases")
        for name, text in cases.items():
            with open(f"{room}/cases/{name}", "w", encoding="utf-8") as it:
                it.write(text)
        call = ["rt", "try", "--steps", "1", "--seconds", str(seconds), "--cases", f"{room}/cases"]
        done = subprocess.run(call, cwd=folder, stdin=subprocess.DEVNULL, capture_output=True, text=True)
    finally:
        shutil.rmtree(room)
    parts = re.split(r"^== (.*)\n", done.stdout, flags=re.M)
    found = dict(zip(parts[1::2], parts[2::2]))
    if set(found) != set(cases):
        sys.exit(f"{len(found)} of {len(cases)} cases ran:\n{done.stdout[-2000:]}\n{done.stderr[-4000:]}")
    return found


# ---- a machine: RV64IM as the RISC-V manual has it, as far as selection goes

def signed(n, bits):
    n &= (1 << bits) - 1
    return n - (1 << bits) if n >> (bits - 1) else n


def distance(w):
    """How many bytes a jump or a branch leads on."""
    if w & 127 == 0x6F:
        return signed((w >> 31 & 1) << 20 | (w >> 12 & 255) << 12 | (w >> 20 & 1) << 11 | (w >> 21 & 1023) << 1, 21)
    return signed((w >> 31 & 1) << 12 | (w >> 7 & 1) << 11 | (w >> 25 & 63) << 5 | (w >> 8 & 15) << 1, 13)


def quotient(a, b):
    return abs(a) // abs(b) * (1 if (a < 0) == (b < 0) else -1)


def computed(funct3, funct7, a, b, bits, immediate):
    """What an operation gives of two words, of which the low bits count. Below are signed values."""
    x, y, low = signed(a, bits), signed(b, bits), lambda n: n & ((1 << bits) - 1)
    if funct7 == 1 and not immediate:
        high = {1: x * y, 2: x * low(b), 3: low(a) * low(b)}
        if funct3 in high:
            return high[funct3] >> bits
        if funct3 == 0:
            return x * y
        if funct3 % 2:
            x, y = low(a), low(b)
        if y == 0:
            return -1 if funct3 < 6 else x
        return quotient(x, y) if funct3 < 6 else x - y * quotient(x, y)
    other, count = funct7 >> 5, b % bits
    return [lambda: x - y if other and not immediate else x + y, lambda: x << count, lambda: int(x < y), lambda: int(low(a) < low(b)),
            lambda: x ^ y, lambda: x >> count if other else low(a) >> count, lambda: x | y, lambda: x & y][funct3]()


class Guest:
    """A run of words from 0x10000 on: how often each word was taken, and what x10 held at the end, or None after a fault."""

    def __init__(self, words, arguments, private, heap, statics, memory):
        self.words, self.taken = words, [0] * len(words)
        self.memories = {1 << 30: bytearray(statics + bytes(memory - len(statics))), 1 << 32: bytearray(private)}
        self.x = [0] * 32
        self.x[2], self.x[3], self.x[4] = (1 << 32) + private, heap, (1 << 30) + memory
        self.x[10:10 + len(arguments)] = [a % (1 << 64) for a in arguments]
        self.pc, self.out, self.result = 0x10000, b"", None
        while self.pc and self.step():
            pass
        if not self.pc:
            self.result = self.x[10]

    def at(self, address, n):
        for base, memory in self.memories.items():
            if base <= address and address + n <= base + len(memory):
                return memory, address - base
        raise IndexError(hex(address))

    def step(self):
        k = (self.pc - 0x10000) // 4
        self.taken[k] += 1
        w, x, pc = self.words[k], self.x, self.pc
        opcode, rd, funct3, funct7 = w & 127, w >> 7 & 31, w >> 12 & 7, w >> 25
        a, b, i = x[w >> 15 & 31], x[w >> 20 & 31], signed(w >> 20, 12)
        self.pc, value = pc + 4, None
        if opcode in (0x37, 0x17):
            value = signed(w & 0xFFFFF000, 32) + (pc if opcode == 0x17 else 0)
        elif opcode == 0x6F:
            self.pc, value = pc + distance(w), pc + 4
        elif opcode == 0x67:
            self.pc, value = (a + i) % (1 << 64) & ~1, pc + 4
        elif opcode == 0x63:
            test = {0: a == b, 4: signed(a, 64) < signed(b, 64), 6: a < b}[funct3 & 6] != bool(funct3 & 1)
            self.pc = pc + distance(w) if test else pc + 4
        elif opcode == 0x03:
            n = 1 << (funct3 & 3)
            memory, at = self.at((a + i) % (1 << 64), n)
            value = int.from_bytes(memory[at:at + n], "little", signed=funct3 < 4)
        elif opcode == 0x23:
            n = 1 << funct3
            memory, at = self.at((a + signed(funct7 << 5 | rd, 12)) % (1 << 64), n)
            memory[at:at + n] = (b % (1 << 8 * n)).to_bytes(n, "little")
        elif opcode in (0x13, 0x1B, 0x33, 0x3B):
            immediate, bits = opcode < 0x20, 32 if opcode & 8 else 64
            shift = w >> 26 << 1 if immediate and bits == 64 else funct7
            value = signed(computed(funct3, shift if not immediate or funct3 in (1, 5) else 0, a, i if immediate else b, bits, immediate),
                           bits)
        elif opcode == 0x73 and x[17] == 64:
            memory, at = self.at(x[11], x[12])
            self.out += memory[at:at + x[12]]
            value, rd = x[12], 10
        else:
            return False
        if rd and value is not None:
            x[rd] = value % (1 << 64)
        return True
