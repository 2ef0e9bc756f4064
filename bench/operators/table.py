"""Writes what each operator gives at each width, by C's rules with wrapping, as one number for each.

The operands are ten at the edges of the width, each with each; a divisor of zero is left out. The results, as words of 64
bits, are mixed into one number in order: crates/terra_meaning/proofs/Operators.antt computes the same from the
definitions. Run `python3 table.py`; the lines are the rows of that file."""

OPERATORS = ["Add", "Subtract", "Multiply", "Divide", "Modulo", "Xor", "And", "Or", "ShiftLeft", "ShiftRight",
             "Equal", "NotEqual", "Less", "LessEqual", "Greater", "GreaterEqual"]


def held(bits, signed, number):
    """The number that a type of so many bits holds for it."""
    number &= (1 << bits) - 1
    return number - (1 << bits) if signed and number >> (bits - 1) else number


def quotient(a, b):
    q = abs(a) // abs(b)
    return -q if (a < 0) != (b < 0) else q


def result(name, bits, a, b):
    """What an operator gives of two numbers, before it is held."""
    if name == "Add": return a + b
    if name == "Subtract": return a - b
    if name == "Multiply": return a * b
    if name == "Divide": return quotient(a, b)
    if name == "Modulo": return a - b * quotient(a, b)
    if name == "Xor": return a ^ b
    if name == "And": return a & b
    if name == "Or": return a | b
    if name == "ShiftLeft": return a << (b % bits)
    if name == "ShiftRight": return a >> (b % bits)
    if name == "Equal": return a == b
    if name == "NotEqual": return a != b
    if name == "Less": return a < b
    if name == "LessEqual": return a <= b
    if name == "Greater": return a > b
    return a >= b


def mixed(name, bits, signed):
    half = 1 << (bits - 1)
    edges = [0, 1, 2, 7, half - 2, half - 1, half, half + 1, 2 * half - 2, 2 * half - 1]
    numbers = [held(bits, signed, e) for e in edges]
    total = 0
    for a in numbers:
        for b in numbers:
            if b == 0 and name in ("Divide", "Modulo"):
                continue
            value = result(name, bits, a, b)
            if name in OPERATORS[:10]:
                value = held(bits, signed, value)
            total = (total * 1000003 + int(value) % (1 << 64)) % (1 << 64)
    return total


for bits in (8, 16, 32, 64):
    for signed in (True, False):
        print(f"    -- {'int' if signed else 'uint'}{bits}")
        for name in OPERATORS:
            print(f"    ({'signed' if signed else 'unsigned'} {bits}, {name}, {mixed(name, bits, signed)}) ∷")
