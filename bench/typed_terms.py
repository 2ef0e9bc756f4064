"""Typed terms of Terra as trees: the rows that make them in `meaning_rows`, and an interpreter of its own.

Terms are made here as trees. Their rows make them on the program's stack, the parts of a node before it, and the trees
are run here by an interpreter: integers as Python has them, cut to their types, and memory as an array of bytes. Where
a variable lies is found by scopes, before the run.
"""
import sys

sys.setrecursionlimit(100000)
FIRST, MEMORY = 0x40000000, 65536
I8, I16, I32, I64, U8, U16, U32, U64, BOOL, UNIT, RAW = range(11)
rows, wanted = [], []
types = [("int", True, 8 << i) for i in range(4)] + [("int", False, 8 << i) for i in range(4)]
types += [("bool",), ("unit",), ("pointer", I8)]
places = 0
statics = b""


def row(words, answer=None):
    rows.append(words)
    if answer is not None:
        wanted.append("%s = %s" % (words, answer))


def new_type(form, words):
    if form in types:
        t = types.index(form)
    else:
        t = len(types)
        types.append(form)
    row(words, t)
    return t


def pointer(t):
    return new_type(("pointer", t), "pointer %d" % t)


def array(t, n):
    return new_type(("array", t, n), "array %d %d" % (t, n))


def function(result, *params):
    return new_type(("function", tuple(params), result), "function %d%s" % (result, "".join(" %d" % p for p in params)))


def struct(*of):
    types.append(("struct", len(types), of))
    row("struct" + "".join(" %d" % t for t in of), len(types) - 1)
    return len(types) - 1


def align(t):
    form = types[t]
    if form[0] == "array":
        return align(form[1])
    if form[0] == "struct":
        return max([1] + [align(u) for u in form[2]])
    return {"int": lambda: form[2] // 8, "bool": lambda: 1, "unit": lambda: 1}.get(form[0], lambda: 8)()


def offsets(t):
    at, found = 0, []
    for u in types[t][2]:
        at = -(-at // align(u)) * align(u)
        found.append(at)
        at += size(u)
    return found, -(-at // align(t)) * align(t)


def size(t):
    form = types[t]
    if form[0] == "array":
        return size(form[1]) * form[2]
    if form[0] == "struct":
        return offsets(t)[1]
    return {"int": lambda: form[2] // 8, "bool": lambda: 1, "unit": lambda: 0}.get(form[0], lambda: 8)()


def is_whole(t):
    return types[t][0] in ("array", "struct")


def cut(t, n):
    """A number as one of a type; of a bool, its lowest bit."""
    form = types[t]
    if form[0] == "int":
        n %= 1 << form[2]
        return n - (1 << form[2]) if form[1] and n >> (form[2] - 1) else n
    return n % 2 if form[0] == "bool" else 0 if form[0] == "unit" else n % (1 << 64)


class Node:
    def __init__(self, kind, of, parts, **more):
        self.kind, self.of, self.parts = kind, of, parts
        self.__dict__.update(more)
        self.place = None


def emit(node, words):
    """The rows of a node's parts, and its own."""
    global places
    for part in node.parts:
        part.write()
    places += 1
    node.place = places
    row(words)


def N(of, n):
    return Expr("number", of, [], value=cut(of, n), words=lambda e: "number %d %d" % (e.value % (1 << 64), of))


class Expr(Node):
    def write(self):
        emit(self, self.words(self))


class Stmt(Node):
    def write(self):
        emit(self, self.words(self))


def T(b):
    return Expr("number", BOOL, [], value=int(b), words=lambda e: "true" if b else "false")


def nil(t):
    return Expr("number", t, [], value=0, words=lambda e: "nil %d" % t)


def V(x, t):
    return Expr("variable", t, [], name=x, words=lambda e: "variable %d %d" % (x, t))


def G(address, t):
    return Expr("global", t, [], address=address, words=lambda e: "global %d %d" % (address, t))


def F(f, t):
    return Expr("fnvalue", t, [], f=f, words=lambda e: "fnvalue %d %d" % (f, t))


def op(kind, of, *parts, extra=""):
    return Expr(kind, of, list(parts), extra=extra, words=lambda e: ("%s %d %d %s" % (kind, len(parts), of, extra)).strip())


def B(o, a, b):
    tests = ("==", "~=", "<", "<=", ">", ">=")
    return op("binary", BOOL if o in tests else a.of, a, b, extra=o)


def call(f, of, *args):
    return op("call", of, *args, extra=str(f))


def both(a, b):
    return Expr("both", BOOL, [a, b], words=lambda e: "both")


def either(a, b):
    return Expr("either", BOOL, [a, b], words=lambda e: "either")


def deref(p, t):
    return Expr("deref", t, [p], words=lambda e: "deref %d" % t)


def select(e, offset, t):
    return Expr("select", t, [e], offset=offset, words=lambda e: "select %d %d" % (offset, t))


def follow(p, offset, t):
    return Expr("follow", t, [p], offset=offset, words=lambda e: "follow %d %d" % (offset, t))


def element(a, i, t):
    return Expr("element", t, [a, i], words=lambda e: "element %d" % t)


def index(p, i, t):
    return Expr("index", t, [p, i], words=lambda e: "index %d" % t)


def address(e, t):
    return Expr("address", t, [e], words=lambda _: "address %d" % t)


def decay(e, t):
    return Expr("decay", t, [e], words=lambda _: "decay %d" % t)


def let(block, e):
    return Expr("let", e.of, block + [e], block=block, words=lambda _: "let %d %d" % (len(block), e.of))


def names_of(names):
    return "".join(" %d:%d" % n for n in names)


def var(names, *values):
    return Stmt("var", UNIT, list(values), names=names, words=lambda s: "var %d%s" % (len(values), names_of(names)))


def put(targets, values):
    return Stmt("set", UNIT, targets + values, targets=targets, values=values,
                words=lambda s: "set %d %d" % (len(targets), len(values)))


def cond(test, block, other=None):
    if other is None:
        return Stmt("if", UNIT, [test] + block, test=test, block=block, other=[], words=lambda s: "if %d" % len(block))
    return Stmt("if", UNIT, [test] + block + other, test=test, block=block, other=other,
                words=lambda s: "ifelse %d %d" % (len(block), len(other)))


def loop(test, block):
    return Stmt("while", UNIT, [test] + block, test=test, block=block, words=lambda s: "while %d" % len(block))


def repeat(block, test):
    return Stmt("repeat", UNIT, block + [test], test=test, block=block, words=lambda s: "repeat %d" % len(block))


def count(name, bounds, block):
    return Stmt("for", UNIT, bounds + block, name=name, bounds=bounds, block=block,
                words=lambda s: "for %d:%d %d %d" % (name[0], name[1], len(bounds), len(block)))


def do(block):
    return Stmt("do", UNIT, block, block=block, words=lambda s: "do %d" % len(block))


def stop():
    return Stmt("break", UNIT, [], words=lambda s: "break")


def give(e=None):
    return Stmt("return", UNIT, [e] if e else [], value=e, words=lambda s: "return" if e else "finish")


def perform(e):
    return Stmt("perform", UNIT, [e], value=e, words=lambda s: "perform")


def say(n):
    return perform(op("putbyte", UNIT, N(U8, n)))


class Function:
    def __init__(self, result, params, body):
        self.result, self.params, self.body = result, params, body
        self.layout = Layout(self)


functions, entries = [], []
names = iter(range(1, 10 ** 6))


def fn(result, params, *body):
    for s in body:
        s.write()
    functions.append(Function(result, params, list(body)))
    row("fn %d %d%s" % (len(body), result, names_of(params)), len(functions) - 1)
    return len(functions) - 1


def given_bytes(data):
    """A static, and its address."""
    global statics
    statics += bytes(-len(statics) % 16)
    at = FIRST + len(statics)
    statics += data
    row("bytes %s" % data.hex(), at)
    return at


# ---- the interpreter

class Fault(Exception):
    def __init__(self, kind, place):
        self.kind, self.place = kind, place


class More(Exception):
    pass


class Break(Exception):
    pass


class Give(Exception):
    def __init__(self, value):
        self.value = value


class Machine:
    def __init__(self, memory, n):
        self.bytes = bytearray(statics + bytes(memory - len(statics)))
        self.heap = -(-(FIRST + len(statics)) // 16) * 16
        self.left, self.out = n, b""
        self.end = FIRST + memory
        self.limit = self.end - memory // 4

    def count(self):
        if self.left == 0:
            raise More()
        self.left -= 1

    def range(self, at, a, n):
        if n and not (FIRST <= a and a + n <= self.end):
            raise Fault("BadAddress", at)
        return a - FIRST

    def load(self, at, t, a):
        i = self.range(at, a, size(t))
        data = bytes(self.bytes[i:i + size(t)]) if size(t) else b""
        return data if is_whole(t) else cut(t, int.from_bytes(data, "little"))

    def store(self, at, t, a, v):
        i = self.range(at, a, size(t))
        if size(t):
            self.bytes[i:i + size(t)] = encoded(t, v)


def encoded(t, v):
    return v if is_whole(t) else (v % (1 << 8 * size(t))).to_bytes(size(t), "little")


class Layout:
    """Which declaration each variable finds, and where it lies. Declarations are numbered in the order of evaluation."""

    def __init__(self, f):
        self.types, self.addressed = [], set()
        scope = {}
        self.parameters = self.names(f.params, scope)
        self.block(f.body, scope)
        at, self.homes = 0, {}
        for k, t in enumerate(self.types):
            if is_whole(t) or k in self.addressed:
                at = -(-at // align(t)) * align(t)
                self.homes[k] = at
                at += size(t)
        self.size = -(-at // 16) * 16

    def names(self, names, scope):
        numbers = []
        for x, t in names:
            scope[x] = len(self.types)
            numbers.append(len(self.types))
            self.types.append(t)
        return numbers

    def block(self, statements, scope):
        for s in statements:
            self.statement(s, scope)

    def expression(self, e, scope):
        if e.kind == "variable":
            e.number = scope[e.name]
        elif e.kind == "let":
            inner = dict(scope)
            self.block(e.block, inner)
            self.expression(e.parts[-1], inner)
        else:
            for part in e.parts:
                self.expression(part, scope)
        if e.kind == "address" and e.parts[0].kind == "variable":
            self.addressed.add(e.parts[0].number)

    def statement(self, s, scope):
        k = s.kind
        if k == "var":
            for v in s.parts:
                self.expression(v, scope)
            s.numbers = self.names(s.names, scope)
        elif k == "set":
            for e in s.values + s.targets:
                self.expression(e, scope)
        elif k == "for":
            for e in s.bounds:
                self.expression(e, scope)
            inner = dict(scope)
            s.numbers = self.names([s.name], inner)
            self.block(s.block, inner)
        elif k == "repeat":
            inner = dict(scope)
            self.block(s.block, inner)
            self.expression(s.test, inner)
        elif k == "do":
            self.block(s.block, dict(scope))
        elif k in ("if", "while"):
            self.expression(s.test, scope)
            self.block(s.block, dict(scope))
            if k == "if":
                self.block(s.other, dict(scope))
        elif k in ("return", "perform") and s.value:
            self.expression(s.value, scope)


class Activation:
    def __init__(self, m, base, depth, homes):
        self.m, self.base, self.depth, self.homes, self.words = m, base, depth, homes, {}

    def declare(self, at, k, t, v):
        if k in self.homes:
            if v is not None:
                self.m.store(at, t, self.base + self.homes[k], v)
        else:
            self.words[k] = 0 if v is None else v

    def address(self, e):
        k = e.kind
        if k == "variable":
            return self.base + self.homes[e.number] if e.number in self.homes else None
        if k == "global":
            return e.address
        if k == "deref":
            return self.value(e.parts[0])
        if k == "select":
            return (self.address(e.parts[0]) + e.offset) % (1 << 64)
        if k == "follow":
            return (self.value(e.parts[0]) + e.offset) % (1 << 64)
        if k == "element":
            a = self.address(e.parts[0])
            return (a + self.value(e.parts[1]) * size(e.of)) % (1 << 64)
        if k == "index":
            a = self.value(e.parts[0])
            return (a + self.value(e.parts[1]) * size(e.of)) % (1 << 64)
        raise AssertionError(k)

    def value(self, e):
        k, of = e.kind, e.of
        if k == "number":
            return e.value
        if k == "fnvalue":
            return entries.index(e.f) + 1 if e.f in entries else len(entries) + 1
        if k == "variable" and e.number not in self.homes:
            return self.words[e.number]
        if k in ("variable", "global", "deref", "select", "follow", "element", "index"):
            return self.m.load(e.place, of, self.address(e))
        if k == "both":
            return self.value(e.parts[1]) if self.value(e.parts[0]) else 0
        if k == "either":
            return 1 if self.value(e.parts[0]) else self.value(e.parts[1])
        if k in ("address", "decay"):
            return self.address(e.parts[0])
        if k == "let":
            self.block(e.block)
            return self.value(e.parts[-1])
        return self.operate(e, k, of, [self.value(p) for p in e.parts])

    def operate(self, e, k, of, vs):
        if k == "neg":
            return cut(of, -vs[0])
        if k == "not":
            return 1 - vs[0] if of == BOOL else cut(of, ~vs[0])
        if k == "binary":
            return binary(e, e.extra, e.parts[0].of, *vs)
        if k in ("forward", "back"):
            step = vs[1] * size(types[of][1])
            return (vs[0] + (step if k == "forward" else -step)) % (1 << 64)
        if k == "difference":
            apart = cut(I64, vs[0] - vs[1])
            n = size(types[e.parts[0].of][1])
            return cut(I64, abs(apart) // n * (-1 if apart < 0 else 1))
        if k == "convert":
            return int(vs[0] != 0) if of == BOOL else cut(of, vs[0])
        if k == "extract":
            o = int(e.extra)
            data = vs[0][o:o + size(of)]
            return data if is_whole(of) else cut(of, int.from_bytes(data, "little"))
        if k == "construct":
            data = bytearray(size(of))
            for o, p, v in zip(e.extra.split(), e.parts, vs):
                data[int(o):int(o) + size(p.of)] = encoded(p.of, v)
            return bytes(data)
        if k == "putbyte":
            self.m.out += bytes([vs[0] % 256])
            return 0
        if k == "write":
            if vs[1] < 0:
                raise Fault("BadAddress", e.place)
            i = self.m.range(e.place, vs[0], vs[1])
            self.m.out += bytes(self.m.bytes[i:i + vs[1]]) if vs[1] else b""
            return 0
        if k == "alloc":
            start = -(-self.m.heap // 16) * 16
            if vs[0] < 0 or start + vs[0] > self.m.limit:
                return 0
            self.m.heap = start + vs[0]
            return start
        if k == "call":
            return self.call(int(e.extra), vs, e.place)
        if k == "callvalue":
            form = types[e.parts[0].of]
            if not 1 <= vs[0] <= len(entries):
                raise Fault("BadCall", e.place)
            f = functions[entries[vs[0] - 1]]
            if tuple(t for _, t in f.params) != form[1] or f.result != form[2]:
                raise Fault("BadCall", e.place)
            return self.call(entries[vs[0] - 1], vs[1:], e.place)
        raise AssertionError(k)

    def call(self, f, vs, at):
        self.m.count()
        return enter(self.m, f, vs, at, self.depth + 1, self.base)

    def block(self, statements):
        for s in statements:
            self.do(s)

    def assign(self, e, a, v):
        if a is None:
            self.words[e.number] = v
        else:
            self.m.store(e.place, e.of, a, v)

    def do(self, s):
        k = s.kind
        if k == "var":
            vs = [self.value(v) for v in s.parts]
            for i, (k, (x, t)) in enumerate(zip(s.numbers, s.names)):
                self.declare(s.place, k, t, vs[i] if vs else None)
        elif k == "set":
            vs = [self.value(v) for v in s.values]
            where = [self.address(t) for t in s.targets]
            for t, a, v in zip(s.targets, where, vs):
                self.assign(t, a, v)
        elif k == "if":
            self.block(s.block if self.value(s.test) else s.other)
        elif k == "while":
            try:
                while self.value(s.test):
                    self.block(s.block)
                    self.m.count()
            except Break:
                pass
        elif k == "repeat":
            try:
                while True:
                    self.block(s.block)
                    if self.value(s.test):
                        break
                    self.m.count()
            except Break:
                pass
        elif k == "for":
            self.counting(s)
        elif k == "do":
            self.block(s.block)
        elif k == "break":
            raise Break()
        elif k == "return":
            raise Give(self.value(s.value) if s.value else 0)
        elif k == "perform":
            self.value(s.value)

    def counting(self, s):
        vs = [self.value(b) for b in s.bounds]
        i, limit, step = vs[0], vs[1], vs[2] if len(vs) > 2 else 1
        try:
            while step and (i < limit if step > 0 else i > limit):
                self.declare(s.place, s.numbers[0], s.name[1], i)
                self.block(s.block)
                self.m.count()
                i = cut(s.name[1], i + step)
        except Break:
            pass


def binary(e, o, t, a, b):
    if o in "/%" and b == 0:
        raise Fault("DivZero", e.place)
    tests = {"==": a == b, "~=": a != b, "<": a < b, "<=": a <= b, ">": a > b, ">=": a >= b}
    if o in tests:
        return int(tests[o])
    bits = types[t][2]
    q = (abs(a) // abs(b)) * (1 if (a < 0) == (b < 0) else -1) if o in "/%" else 0
    n = b % (1 << 64) % bits
    return cut(t, {"+": a + b, "-": a - b, "*": a * b, "/": q, "%": a - b * q, "^": a ^ b, "and": a & b, "or": a | b,
                   "<<": a << n, ">>": a >> n}[o])


def enter(m, f, vs, at, depth, top):
    f = functions[f]
    if depth >= 512:
        raise Fault("CallDepth", at)
    if top < m.limit + f.layout.size:
        raise Fault("StackFull", at)
    a = Activation(m, top - f.layout.size, depth, f.layout.homes)
    try:
        for k, (x, t), v in zip(f.layout.parameters, f.params, vs):
            a.declare((2, 1), k, t, v)
        a.block(f.body)
    except Give as g:
        return g.value
    if f.result != UNIT:
        raise Fault("NoReturn", (2, 1))
    return 0


def shown(data):
    return "".join(chr(b) if 32 <= b < 127 and b != 37 else "%%%02x" % b for b in data)


def needs_more(f, n, vs):
    try:
        enter(Machine(MEMORY, n), f, list(vs), (2, 1), 0, FIRST + MEMORY)
    except Fault:
        pass
    except More:
        return True
    return False


def answer(f, n, *vs, memory=MEMORY):
    """How a run ends, and its output."""
    m = Machine(memory, n)
    try:
        v = enter(m, f, list(vs), (2, 1), 0, m.end)
        end = "returned " + ("bytes " + shown(v) if isinstance(v, bytes) and v else str(v % (1 << 64)) if v != b"" else "0")
    except Fault as e:
        end = "%s at %s" % (e.kind, "%d:%d" % (e.place if isinstance(e.place, tuple) else (1, e.place)))
    except More:
        end = "more"
    return "%s [%s]" % (end, shown(m.out))


def words_of(vs):
    return "".join(" %d" % (v % (1 << 64)) for v in vs)


def run(f, n, *vs, memory=MEMORY):
    row("run %d %d %d%s" % (f, memory, n, words_of(vs)), answer(f, n, *vs, memory=memory))


def runs(f, *vs, most=20):
    """The runs at each count up to the most. An answer stands where it is another than at the count before."""
    parts, last = [], None
    for n in range(most + 1):
        end = answer(f, n, *vs)
        if end != last:
            parts.append("%d: %s" % (n, end))
        last = end
    row("counts %d %d %d%s" % (f, MEMORY, most, words_of(vs)), "; ".join(parts))


def short(end):
    """Of a word without output the word alone."""
    end = end[len("returned "):] if end.startswith("returned ") else end
    return end[:-len(" []")] if end.endswith(" []") else end


def each(f, n, xs):
    """The runs on each argument."""
    row("each %d %d %d%s" % (f, MEMORY, n, words_of(xs)), "; ".join(short(answer(f, n, x)) for x in xs))


def pairs(f, n, xs):
    """The runs on each two of these arguments."""
    row("pairs %d %d %d%s" % (f, MEMORY, n, words_of(xs)), "; ".join(short(answer(f, n, x, y)) for x in xs for y in xs))
