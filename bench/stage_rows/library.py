"""The functions of Lua's library as docs/LANGUAGE.md has them ("Lua's library"), with what they pay: an own reading."""

import lua

BASIC = (
    "assert error getmetatable ipairs next pairs pcall print rawequal rawget rawset select setmetatable tonumber tostring type unpack"
).split()
ON_TEXTS = "byte char format len rep sub".split()
ON_TABLES = "concat insert remove".split()
TERRA_TYPES = "int8 int16 int32 int64 uint8 uint16 uint32 uint64 int uint intptr ptrdiff bool rawstring".split()
TERRA_FUNCTIONS = "symbol macro global constant sizeof".split()
MOST_RESULTS = 4096


class Call:
    """A call of a function, whose arguments are read by their number from 1."""

    def __init__(self, machine, name, args, place, outer):
        self.machine, self.name, self.args, self.place, self.outer = machine, name, args, place, outer

    def bad(self, n):
        self.machine.fail(self.place, "bad argument %d to %s" % (n, self.name))

    def at(self, n):
        return self.args[n - 1] if n <= len(self.args) else None

    def needed(self, n):
        if n > len(self.args):
            self.bad(n)
        return self.at(n)

    def table(self, n):
        return self.at(n) if isinstance(self.at(n), lua.Table) else self.bad(n)

    def number(self, n, *other):
        v = self.at(n)
        if v is None and other:
            return other[0]
        if lua.is_number(v):
            return v
        m = lua.NUMERAL.match(v) if isinstance(v, bytes) else None
        if m is None:
            self.bad(n)
        size = int(m.group(2), 16) if m.group(2) else int(m.group(3))
        return (-size if m.group(1) == b"-" else size) if size <= lua.LARGEST else self.bad(n)

    def text(self, n, *other):
        v = self.at(n)
        if v is None and other:
            return other[0]
        return lua.text_of(v) if lua.kind(v) in ("string", "number") else self.bad(n)

    def raised(self, v):
        raise lua.Raised(self.place, v)

    def fail(self, text):
        self.machine.fail(self.place, text)

    def make(self, text):
        return self.machine.make(text, self.place)

    # -- basic functions

    def do_assert(self):
        v = self.needed(1)
        if v is not None and v is not False:
            return self.args
        message = self.at(2)
        if isinstance(message, bytes):
            self.raised(message)
        if message is None or lua.is_number(message):
            text = b"assertion failed!" if message is None else lua.text_of(message)
            self.machine.pay_text(len(text))
            self.raised(text)
        self.bad(2)

    def do_error(self):
        v, level = self.at(1), self.number(2, 1)
        if level not in (0, 1, 2):
            self.bad(2)
        before = (None, self.place, self.outer)[level]
        if isinstance(v, bytes) and before:
            v = self.make(b"%d:%d: " % before + v)
        self.raised(v)

    def do_getmetatable(self):
        v = self.needed(1)
        return [v.metatable if isinstance(v, lua.Table) else None]

    def do_ipairs(self):
        if self.machine.ipairs_next is self.function:
            i = (self.table(1), self.number(2))[1] + 1
            v = self.table(1).get(i) if i <= lua.LARGEST else None
            return [] if v is None else [i, v]
        return [self.machine.ipairs_next, self.table(1), 0]

    def do_next(self):
        table, key = self.table(1), self.at(2)
        entries = list(table.pairs.items())
        if key is not None:
            places = [place for place, _ in entries]
            if lua.key_of(key) not in places:
                self.fail("invalid key to 'next'")
            entries = entries[places.index(lua.key_of(key)) + 1 :]
        return next(([k, v] for _, (k, v) in entries if v is not None), [None])

    def do_pairs(self):
        return [self.machine.next, self.table(1), None]

    def do_pcall(self):
        f = self.needed(1)
        try:
            return [True] + self.machine.call_other(f, self.args[1:], self.place, self.place)
        except lua.Raised as r:
            return [False, r.value]

    def do_print(self):
        line = b"\t".join(lua.text_of(v) for v in self.args) + b"\n"
        self.machine.pay_text(len(line))
        self.machine.printed += line
        return []

    def do_rawequal(self):
        return [lua.key_of(self.needed(1)) == lua.key_of(self.needed(2))]

    def do_rawget(self):
        return [self.table(1).get(self.needed(2))]

    def do_rawset(self):
        table, key, v = self.table(1), self.needed(2), self.needed(3)
        if key is None:
            self.fail("table index is nil")
        table.set(key, v)
        return [table]

    def do_select(self):
        self.needed(1)
        if self.at(1) == b"#":
            return [len(self.args) - 1]
        n = self.number(1)
        return self.args[n:] if n > 0 else self.bad(1)

    def do_setmetatable(self):
        table, metatable = self.table(1), self.needed(2)
        if metatable is not None and not isinstance(metatable, lua.Table):
            self.bad(2)
        table.metatable = metatable
        return [table]

    def do_tonumber(self):
        return [self.machine.number(self.needed(1), self.place)]

    def do_tostring(self):
        v = self.needed(1)
        return [v if isinstance(v, bytes) else self.make(lua.text_of(v))]

    def do_type(self):
        return [self.make(lua.kind(self.needed(1)).encode())]

    def do_unpack(self):
        table = self.table(1)
        first, last = self.number(2, 1), self.number(3, table.border())
        count = max(0, last - first + 1)
        if count > MOST_RESULTS:
            self.fail("too many results")
        self.machine.pay(count)
        return [table.get(first + i) for i in range(count)]

    # -- functions on texts

    def part(self, text, first, last):
        """The bytes from a position to another one, which count from the end where they are below zero."""
        first, last = (len(text) + 1 + n if n < 0 else n for n in (first, last))
        return text[max(first, 1) - 1 : max(last, 0)]

    def do_byte(self):
        text, first = self.text(1), self.number(2, 1)
        return list(self.part(text, first, self.number(3, first)))

    def do_char(self):
        codes = [self.number(n + 1) for n in range(len(self.args))]
        for n, code in enumerate(codes):
            if not 0 <= code <= 255:
                self.bad(n + 1)
        return [self.make(bytes(codes))]

    def do_len(self):
        return [len(self.text(1))]

    def do_rep(self):
        text, count = self.text(1), max(0, self.number(2))
        if len(text) * count > lua.LONGEST:
            self.fail("text too long")
        return [self.make(text * count if text else b"")]

    def do_sub(self):
        return [self.make(self.part(self.text(1), self.number(2), self.number(3, -1)))]

    def do_format(self):
        pieces, n = self.text(1).split(b"%"), 1
        out, pieces = pieces[0], pieces[1:]
        while pieces:
            piece = pieces.pop(0)
            if piece[:1] in (b"d", b"s"):
                n += 1
                out += (b"%d" % self.number(n) if piece[:1] == b"d" else self.text(n)) + piece[1:]
            elif piece == b"" and pieces:
                out += b"%" + pieces.pop(0)
            else:
                self.bad(1)
        return [self.make(out)]

    # -- functions on tables

    def do_concat(self):
        table, separator = self.table(1), self.text(2, b"")
        first, last = self.number(3, 1), self.number(4, table.border())
        values = []
        for i in range(first, last + 1):
            self.machine.pay(1)
            v = table.get(i)
            if lua.kind(v) not in ("string", "number"):
                self.bad(1)
            values.append(lua.text_of(v))
        return [self.make(separator.join(values))]

    def do_insert(self):
        table = self.table(1)
        if len(self.args) not in (2, 3):
            self.bad(2 if len(self.args) < 2 else 4)
        end = table.border() + 1
        at = end if len(self.args) == 2 else self.number(2)
        self.machine.pay(max(0, end - at) + 1)
        for i in range(end, at, -1):
            table.set(i, table.get(i - 1))
        table.set(at, self.args[-1])
        return []

    def do_remove(self):
        table = self.table(1)
        end = table.border()
        at = self.number(2, end)
        if not 1 <= at <= end:
            return []
        self.machine.pay(end - at + 1)
        v = table.get(at)
        for i in range(at, end + 1):
            table.set(i, table.get(i + 1))
        return [v]


def call(machine, function, args, place, outer):
    it = Call(machine, function.name, args, place, outer)
    it.function = function
    return getattr(it, "do_" + function.name)()
