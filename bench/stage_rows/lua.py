"""Lua as docs/LANGUAGE.md has it ("Lua in the profile", and its library), evaluated with the units that it pays.

An own reading of the rules, by recursion on the tree: no part of it follows the crates. It takes sources that have a
tree.
"""

import re

import library

LARGEST = 99_999_999_999_999
LONGEST = 65_535
MOST_CALLS = 200


class Raised(Exception):
    """An error, whose value is `value`."""

    def __init__(self, place, value):
        super().__init__(value)
        self.place, self.value = place, value


class Spent(Exception):
    pass


class Broke(Exception):
    pass


class Returned(Exception):
    def __init__(self, values):
        super().__init__()
        self.values = values


# ---- values


class Table:
    """The entries stand in order of first insertion; one that is emptied keeps its place, with None as its value."""

    def __init__(self, number):
        self.number, self.pairs, self.metatable = number, {}, None

    def get(self, key):
        return self.pairs.get(key_of(key), (None, None))[1]

    def set(self, key, value):
        place = key_of(key)
        if place in self.pairs or value is not None:
            self.pairs[place] = (self.pairs.get(place, (key,))[0], value)

    def border(self):
        n = 0
        while self.get(n + 1) is not None:
            n += 1
        return n


class Closure:
    def __init__(self, number, body, variables):
        self.number, self.body, self.variables = number, body, variables


class Library:
    def __init__(self, name):
        self.name = name


class Scope:
    """What a block that runs sees: its variables, the last one in front of those before it, the values of `...`, and the
    place of the call of the function around it."""

    def __init__(self, variables, varargs, call):
        self.variables, self.varargs, self.call = variables, varargs, call

    def inner(self):
        return Scope(self.variables, self.varargs, self.call)

    def variable(self, name):
        seen = self.variables
        while seen:
            if seen[0] == name:
                return seen
            seen = seen[2]
        return None

    def declare(self, name, value):
        self.variables = [name, value, self.variables]


class TerraType:
    """A type of Terra."""


def is_number(v):
    return isinstance(v, int) and not isinstance(v, bool)


def kind(v):
    if v is None:
        return "nil"
    if isinstance(v, bool):
        return "boolean"
    if isinstance(v, int):
        return "number"
    if isinstance(v, bytes):
        return "string"
    if isinstance(v, TerraType):
        return "terratype"
    return "table" if isinstance(v, Table) else "function"


def key_of(v):
    return (kind(v), id(v) if kind(v) in ("table", "function") else v)


def text_of(v):
    if v is None:
        return b"nil"
    if isinstance(v, bool):
        return b"true" if v else b"false"
    if isinstance(v, int):
        return b"%d" % v
    if isinstance(v, bytes):
        return v
    if isinstance(v, Library):
        return b"function: " + v.name.encode()
    return b"%s: %d" % (kind(v).encode(), v.number)


NUMERAL = re.compile(rb"[ \t\n\v\f\r]*([-+]?)(?:0x([0-9a-fA-F]+)|([0-9]+))[ \t\n\v\f\r]*\Z")
NUMERAL_LIKE = re.compile(rb"[ \t\n\v\f\r]*[-+]?\.?[0-9]")


class Machine:
    def __init__(self, units):
        self.left, self.printed = units, bytearray()
        self.tables, self.closures, self.calls = 0, 0, 0
        self.globals, self.texts, tables = self.new_table(), self.new_table(), self.new_table()
        self.globals.set(b"_G", self.globals)
        self.globals.set(b"_VERSION", b"Lua 5.1")
        for name in library.BASIC:
            self.globals.set(name.encode(), Library(name))
        self.globals.set(b"string", self.texts)
        self.globals.set(b"table", tables)
        for table, names in ((self.texts, library.ON_TEXTS), (tables, library.ON_TABLES)):
            for name in names:
                table.set(name.encode(), Library(name))
        self.open_terra()
        self.next = self.globals.get(b"next")
        self.ipairs_next = Library("ipairs")

    def open_terra(self):
        """The globals of Terra, which Lua code alone doesn't use: their names, and the tables that they take."""
        terralib, types, methods = self.new_table(), self.new_table(), self.new_table()
        for name in library.TERRA_TYPES:
            self.globals.set(name.encode(), TerraType())
        for name in library.TERRA_FUNCTIONS:
            self.globals.set(name.encode(), Library(name))
        self.globals.set(b"terralib", terralib)

    def pay(self, units):
        if units > self.left:
            raise Spent()
        self.left -= units

    def pay_text(self, length):
        self.pay((length + 63) // 64)

    def fail(self, place, text):
        text = ("%d:%d: " % place + text).encode()
        self.pay_text(len(text))
        raise Raised(place, text)

    def new_table(self):
        self.tables += 1
        return Table(self.tables)

    def number(self, v, place):
        """A value as a number, or None."""
        if is_number(v):
            return v
        if isinstance(v, bytes):
            m = NUMERAL.match(v)
            if m:
                n = int(m.group(2), 16) if m.group(2) else int(m.group(3))
                n = -n if m.group(1) == b"-" else n
                if abs(n) <= LARGEST:
                    return n
                self.fail(place, "number out of profile")
            if NUMERAL_LIKE.match(v):
                self.fail(place, "number out of profile")
        return None

    # -- fields

    def handler(self, o, event):
        return o.metatable.get(event) if isinstance(o, Table) and o.metatable else None

    def read(self, o, key, place, outer):
        while True:
            if isinstance(o, bytes):
                o = self.texts
            if not isinstance(o, Table):
                self.fail(place, "attempt to index a %s value" % kind(o))
            value = o.get(key)
            handler = self.handler(o, b"__index") if value is None else None
            if handler is None:
                return value
            if isinstance(handler, (Closure, Library)):
                return (self.call_other(handler, [o, key], place, outer) + [None])[0]
            self.pay(1)
            o = handler

    def store(self, o, key, value, place, outer):
        while True:
            if not isinstance(o, Table):
                self.fail(place, "attempt to index a %s value" % kind(o))
            handler = self.handler(o, b"__newindex") if o.get(key) is None else None
            if handler is None:
                if key is None:
                    self.fail(place, "table index is nil")
                return o.set(key, value)
            if isinstance(handler, (Closure, Library)):
                self.call_other(handler, [o, key, value], place, outer)
                return
            self.pay(1)
            o = handler

    # -- calls

    def call(self, f, args, place, outer):
        """A call by a node."""
        if isinstance(f, Table):
            handler = self.handler(f, b"__call")
            if isinstance(handler, (Closure, Library)):
                return self.call_other(handler, [f] + args, place, outer)
        if not isinstance(f, (Closure, Library)):
            self.fail(place, "attempt to call a %s value" % kind(f))
        if self.calls == MOST_CALLS:
            self.fail(place, "stack overflow")
        self.calls += 1
        try:
            if isinstance(f, Closure):
                return self.enter(f, args, place)
            return library.call(self, f, args, place, outer)
        finally:
            self.calls -= 1

    def call_other(self, f, args, place, outer):
        """A call by a function of the library or by an event, which pays for one of a function of Lua code."""
        if isinstance(f, Closure):
            self.pay(1)
        return self.call(f, args, place, outer)

    def enter(self, f, args, place):
        names, variadic, block = f.body
        scope = Scope(f.variables, args[len(names) :] if variadic else [], place)
        for i, name in enumerate(names):
            scope.declare(name, args[i] if i < len(args) else None)
        try:
            self.run(block, scope)
        except Returned as r:
            return r.values
        return []

    # -- statements

    def run(self, block, scope):
        for statement in block:
            self.pay(1)
            getattr(self, "do_" + statement[0].replace(" ", "_"))(scope, *statement[1:])

    def do_do(self, scope, place, block):
        self.run(block, scope.inner())

    def do_while(self, scope, place, test, block):
        while self.holds(test, scope):
            self.pay(1)
            try:
                self.run(block, scope.inner())
            except Broke:
                return

    def do_repeat(self, scope, place, block, test):
        while True:
            self.pay(1)
            inner = scope.inner()
            try:
                self.run(block, inner)
            except Broke:
                return
            if self.holds(test, inner):
                return

    def do_if(self, scope, place, arms, other):
        for test, block in arms:
            if self.holds(test, scope):
                return self.run(block, scope.inner())
        if other is not None:
            self.run(other, scope.inner())

    def do_count(self, scope, place, names, es, block):
        values = [self.one(e, scope) for e in es]
        numbers = []
        for v, word in zip(values, ("initial value", "limit", "step")):
            n = self.number(v, place)
            if n is None:
                self.fail(place, "'for' %s must be a number" % word)
            numbers.append(n)
        i, limit, step = numbers if len(numbers) == 3 else numbers + [1]
        while abs(i) <= LARGEST and (i <= limit if step > 0 else i >= limit):
            self.pay(1)
            inner = scope.inner()
            inner.declare(names[0], i)
            try:
                self.run(block, inner)
            except Broke:
                return
            i += step

    def do_each(self, scope, place, names, es, block):
        f, state, last = (self.many(es, scope) + [None] * 3)[:3]
        while True:
            values = self.call(f, [state, last], place, scope.call) + [None] * len(names)
            last = values[0]
            if last is None:
                return
            self.pay(1)
            inner = scope.inner()
            for name, value in zip(names, values):
                inner.declare(name, value)
            try:
                self.run(block, inner)
            except Broke:
                return

    def do_function(self, scope, place, first, path, body):
        self.pay(1)
        if not path:
            self.assign_name(first[2], self.closure(body, scope), scope, first[1])
            return
        o = self.named(first[2], scope, first[1])
        for at, key in path[:-1]:
            o = self.read(o, key, at, scope.call)
        at, key = path[-1]
        self.store(o, key, self.closure(body, scope), at, scope.call)

    def do_local_function(self, scope, place, name, body):
        scope.declare(name, None)
        scope.variable(name)[1] = self.closure(body, scope)

    def do_local(self, scope, place, names, es):
        values = self.many(es, scope) + [None] * len(names)
        for name, value in zip(names, values):
            scope.declare(name, value)

    def do_assign(self, scope, place, targets, es):
        ready = []
        for target in targets:
            self.pay(1)
            if target[0] == "name":
                ready.append((target, None, None))
            else:
                o = self.one(target[2], scope)
                ready.append((target, o, self.key(target[3], scope)))
        values = self.many(es, scope)
        values += [None] * (len(targets) - len(values))
        for (target, o, key), value in reversed(list(zip(ready, values))):
            if target[0] == "name":
                self.assign_name(target[2], value, scope, target[1])
            else:
                self.store(o, key, value, target[1], scope.call)

    def do_call(self, scope, place, e):
        self.evaluate(e, scope)

    def do_return(self, scope, place, es):
        raise Returned(self.many(es, scope))

    def do_break(self, scope, place):
        raise Broke()

    # -- expressions

    def named(self, name, scope, place):
        variable = scope.variable(name)
        return variable[1] if variable else self.read(self.globals, name.encode(), place, scope.call)

    def assign_name(self, name, value, scope, place):
        variable = scope.variable(name)
        if variable:
            variable[1] = value
        else:
            self.store(self.globals, name.encode(), value, place, scope.call)

    def closure(self, body, scope):
        self.closures += 1
        return Closure(self.closures, body, scope.variables)

    def key(self, e, scope):
        return e[2] if e[0] == "key" else self.one(e, scope)

    def holds(self, e, scope):
        v = self.one(e, scope)
        return v is not None and v is not False

    def one(self, e, scope):
        values = self.evaluate(e, scope)
        return values[0] if values else None

    def many(self, es, scope):
        values = []
        for i, e in enumerate(es):
            if i + 1 < len(es):
                values.append(self.one(e, scope))
            else:
                values += self.evaluate(e, scope)
        return values

    def evaluate(self, e, scope):
        self.pay(1)
        what, place = e[:2]
        if what == "constant":
            return [e[2]]
        if what == "name":
            return [self.named(e[2], scope, place)]
        if what == "varargs":
            return list(scope.varargs)
        if what == "closure":
            return [self.closure(e[2], scope)]
        if what == "brackets":
            return [self.one(e[2], scope)]
        if what == "index":
            o = self.one(e[2], scope)
            return [self.read(o, self.key(e[3], scope), place, scope.call)]
        if what == "invoke":
            f = self.one(e[2], scope)
            return self.call(f, self.many(e[3], scope), place, scope.call)
        if what == "method":
            o = self.one(e[2], scope)
            f = self.read(o, e[3], place, scope.call)
            return self.call(f, [o] + self.many(e[4], scope), place, scope.call)
        if what == "table":
            return [self.construct(e, scope)]
        if what == "unary":
            return [self.unary(e[2], self.one(e[3], scope), place, scope.call)]
        return [self.binary(e, scope)]

    def construct(self, e, scope):
        table, count = self.new_table(), 0
        for i, (key, value) in enumerate(e[2]):
            if key is None:
                values = self.evaluate(value, scope) if i + 1 == len(e[2]) else [self.one(value, scope)]
                for v in values:
                    count += 1
                    self.store(table, count, v, e[1], scope.call)
            else:
                key = key if isinstance(key, bytes) else self.one(key, scope)
                self.store(table, key, self.one(value, scope), e[1], scope.call)
        return table

    def handled(self, event, operands, place, outer, fault):
        """The first value of the handler of the first operand that has one."""
        for v in operands:
            handler = self.handler(v, event)
            if handler is not None:
                return (self.call_other(handler, operands, place, outer) + [None])[0]
        self.fail(place, fault)

    def unary(self, sign, v, place, outer):
        if sign == "not":
            return v is None or v is False
        if sign == "#":
            if isinstance(v, bytes):
                return len(v)
            if isinstance(v, Table):
                return v.border()
            self.fail(place, "attempt to get length of a %s value" % kind(v))
        n = self.number(v, place)
        if n is None:
            return self.handled(b"__unm", [v], place, outer, "attempt to perform arithmetic on a %s value" % kind(v))
        return -n

    def binary(self, e, scope):
        _, place, sign, left, right = e
        if sign in ("and", "or"):
            v = self.one(left, scope)
            return self.one(right, scope) if (v is None or v is False) == (sign == "or") else v
        a, b = self.one(left, scope), self.one(right, scope)
        if sign in ("==", "~="):
            return self.equal(a, b, place, scope.call) == (sign == "==")
        if sign in ("<", "<=", ">", ">="):
            return self.compare(sign[1:], *((a, b) if sign[0] == "<" else (b, a)), place, scope.call)
        if sign == "..":
            return self.concatenate(a, b, place, scope.call)
        return self.arithmetic(sign, a, b, place, scope.call)

    def shared(self, event, a, b):
        """The handler that both have."""
        handler = self.handler(a, event)
        return handler if handler is not None and key_of(handler) == key_of(self.handler(b, event)) else None

    def truth(self, handler, args, place, outer):
        v = (self.call_other(handler, args, place, outer) + [None])[0]
        return v is not None and v is not False

    def equal(self, a, b, place, outer):
        if key_of(a) == key_of(b):
            return True
        handler = self.shared(b"__eq", a, b)
        return self.truth(handler, [a, b], place, outer) if handler is not None else False

    def compare(self, equal, a, b, place, outer):
        if kind(a) == kind(b) and kind(a) in ("number", "string"):
            return a <= b if equal else a < b
        handler = self.shared(b"__le" if equal else b"__lt", a, b)
        if handler is not None:
            return self.truth(handler, [a, b], place, outer)
        handler = self.shared(b"__lt", a, b) if equal else None
        if handler is not None:
            return not self.truth(handler, [b, a], place, outer)
        if kind(a) == kind(b):
            self.fail(place, "attempt to compare two %s values" % kind(a))
        self.fail(place, "attempt to compare %s with %s" % (kind(a), kind(b)))

    def concatenate(self, a, b, place, outer):
        for v in (a, b):
            if kind(v) not in ("number", "string"):
                fault = "attempt to concatenate a %s value" % kind(v)
                return self.handled(b"__concat", [a, b], place, outer, fault)
        return self.make(text_of(a) + text_of(b), place)

    def make(self, text, place):
        """A text that is made."""
        if len(text) > LONGEST:
            self.fail(place, "text too long")
        self.pay_text(len(text))
        return text

    def arithmetic(self, sign, a, b, place, outer):
        numbers = []
        for v in (a, b):
            n = self.number(v, place)
            if n is None:
                fault = "attempt to perform arithmetic on a %s value" % kind(v)
                return self.handled(EVENTS[sign], [a, b], place, outer, fault)
            numbers.append(n)
        result = computed(sign, *numbers)
        if result is None or abs(result) > LARGEST:
            self.fail(place, "number out of profile")
        return result


EVENTS = {"+": b"__add", "-": b"__sub", "*": b"__mul", "/": b"__div", "%": b"__mod", "^": b"__pow"}


def computed(sign, a, b):
    if sign == "+":
        return a + b
    if sign == "-":
        return a - b
    if sign == "*":
        return a * b
    if sign == "^":
        return power(a, b)
    if b == 0:
        return None
    if sign == "/":
        return a // b if a % b == 0 else None
    return a % b


def power(a, b):
    if b == 0 or a == 1:
        return 1
    if a == -1:
        return 1 if b % 2 == 0 else -1
    if b < 0:
        return None
    if a == 0:
        return 0
    return a**b if b < 64 else None


def staged(chunk, units):
    """What a chunk prints, how it ends, and the units that are left."""
    machine = Machine(units)
    try:
        machine.run(chunk, Scope(None, [], None))
        end = ("done", None, None)
    except Returned:
        end = ("done", None, None)
    except Spent:
        end = ("spent", None, None)
    except Raised as r:
        text = text_of(r.value) if kind(r.value) in ("string", "number") else b"(error object is not a string)"
        end = ("raised", r.place, text)
    return bytes(machine.printed), end, machine.left
