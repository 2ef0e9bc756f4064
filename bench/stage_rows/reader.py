"""Lua's text as docs/LANGUAGE.md has it, read into tuples. It takes texts that have a tree, without Terra code."""

import re

RESERVED = set(
    "and break do else elseif end false for function if in local nil not or repeat return then true until while "
    "terra quote escape emit struct var".split()
)
SIGNS = re.compile(r"\.\.\.|\.\.|==|~=|<=|>=|<<|>>|->|::|[-+*/%^#<>=(){}\[\];:,.@&`]")
SPACE = re.compile(r"[ \t\v\f]+")
LINE = re.compile(r"\r\n|\n\r|\n|\r")
WORD = re.compile(r"[A-Za-z0-9_]+")
BRACKET = re.compile(r"\[(=*)\[")
CONTROLS = {"a": 7, "b": 8, "f": 12, "n": 10, "r": 13, "t": 9, "v": 11}


class Token:
    __slots__ = ("kind", "value", "place")

    def __init__(self, kind, value, place):
        self.kind, self.value, self.place = kind, value, place


def unescaped(body):
    out, i = bytearray(), 0
    while i < len(body):
        if body[i] != "\\":
            out += body[i].encode()
            i += 1
            continue
        digits = re.compile(r"[0-9]{1,3}").match(body, i + 1)
        line = LINE.match(body, i + 1)
        if digits:
            out.append(int(digits.group()))
            i = digits.end()
        elif line:
            out.append(10)
            i = line.end()
        else:
            out += bytes([CONTROLS[body[i + 1]]]) if body[i + 1] in CONTROLS else body[i + 1].encode()
            i += 2
    return bytes(out)


def tokens(source):
    out, i, line, word = [], 0, 1, 0

    def long_text(at):
        m = BRACKET.match(source, at)
        close = source.index("]" + m.group(1) + "]", m.end())
        return source[m.end() : close], close + len(m.group(1)) + 2

    while i < len(source):
        m = SPACE.match(source, i)
        if m:
            i = m.end()
            continue
        m = LINE.match(source, i)
        if m:
            i, line, word = m.end(), line + 1, 0
            continue
        begun = i
        if source.startswith("--", i):
            if BRACKET.match(source, i + 2):
                i = long_text(i + 2)[1]
                lines = len(LINE.findall(source[begun:i]))
                if lines:
                    line, word = line + lines, 0
            else:
                m = LINE.search(source, i)
                i = m.start() if m else len(source)
            continue
        word += 1
        place = (line, word)
        c = source[i]
        if c in "'\"":
            j = i + 1
            while source[j] != c:
                j += 2 if source[j] == "\\" else 1
            out.append(Token("text", unescaped(source[i + 1 : j]), place))
            i = j + 1
        elif BRACKET.match(source, i):
            body, i = long_text(i)
            body = LINE.sub("\n", body)
            out.append(Token("text", body.removeprefix("\n").encode(), place))
        elif c.isdigit():
            m = WORD.match(source, i)
            out.append(Token("number", int(m.group(), 16 if m.group()[:2] in ("0x", "0X") else 10), place))
            i = m.end()
        elif WORD.match(source, i):
            m = WORD.match(source, i)
            out.append(Token("sign" if m.group() in RESERVED else "name", m.group(), place))
            i = m.end()
        else:
            m = SIGNS.match(source, i)
            out.append(Token("sign", m.group(), place))
            i = m.end()
        lines = len(LINE.findall(source[begun:i]))
        if lines:
            line, word = line + lines, 0
    out.append(Token("end", "", (line, word + 1)))
    return out


LEVELS = [
    {"or"}, {"and"}, {"<", ">", "<=", ">=", "~=", "=="}, {".."}, {"+", "-"}, {"*", "/", "%"},
]


class Reader:
    """Reads a chunk into tuples `(kind, place, ..)`."""

    def __init__(self, source):
        self.tokens, self.at = tokens(source), 0

    @property
    def token(self):
        return self.tokens[self.at]

    def next(self):
        self.at += 1
        return self.tokens[self.at - 1]

    def sees(self, sign):
        return self.token.kind == "sign" and self.token.value == sign

    def sees_next(self, sign):
        t = self.tokens[self.at + 1]
        return t.kind == "sign" and t.value == sign

    def takes(self, sign):
        if self.sees(sign):
            self.at += 1
            return True
        return False

    def want(self, sign):
        if not self.sees(sign):
            raise SyntaxError("%s wanted at %s, not %r" % (sign, self.token.place, self.token.value))
        return self.next()

    def name(self):
        if self.token.kind != "name":
            raise SyntaxError("name wanted at %s" % (self.token.place,))
        return self.next().value

    def names(self):
        names = [self.name()]
        while self.takes(","):
            names.append(self.name())
        return names

    def block(self):
        statements = []
        while not self.is_over():
            statement = self.statement()
            statements.append(statement)
            self.takes(";")
            if statement[0] in ("return", "break"):
                break
        return statements

    def is_over(self):
        """Whether the block ends here."""
        t = self.token
        return t.kind == "end" or t.kind == "sign" and t.value in ("end", "else", "elseif", "until")

    def closed(self):
        block = self.block()
        self.want("end")
        return block

    def expressions(self):
        es = [self.expression()]
        while self.takes(","):
            es.append(self.expression())
        return es

    def statement(self):
        t = self.token
        word = t.value if t.kind == "sign" else ""
        if word in ("do", "while", "repeat", "if", "for", "function", "local", "return", "break"):
            self.next()
            return getattr(self, "read_" + word)(t.place)
        e = self.prefix()
        if self.sees("=") or self.sees(","):
            targets = [e]
            while self.takes(","):
                targets.append(self.prefix())
            self.want("=")
            return ("assign", t.place, targets, self.expressions())
        return ("call", t.place, e)

    def read_do(self, place):
        return ("do", place, self.closed())

    def read_while(self, place):
        test = self.expression()
        self.want("do")
        return ("while", place, test, self.closed())

    def read_repeat(self, place):
        block = self.block()
        self.want("until")
        return ("repeat", place, block, self.expression())

    def read_if(self, place):
        arms = []
        while True:
            test = self.expression()
            self.want("then")
            arms.append((test, self.block()))
            if not self.takes("elseif"):
                break
        other = self.block() if self.takes("else") else None
        self.want("end")
        return ("if", place, arms, other)

    def read_for(self, place):
        names = self.names()
        numeric = self.takes("=")
        if not numeric:
            self.want("in")
        es = self.expressions()
        self.want("do")
        return ("count" if numeric else "each", place, names, es, self.closed())

    def read_function(self, place):
        first = self.token
        self.name()
        path, method = [], False
        while not method and (self.sees(".") or self.sees(":")):
            sign = self.next()
            method = sign.value == ":"
            path.append((sign.place, self.name().encode()))
        return ("function", place, ("name", first.place, first.value), path, self.body(method))

    def read_local(self, place):
        if self.takes("function"):
            name = self.name()
            return ("local function", place, name, self.body(False))
        names = self.names()
        return ("local", place, names, self.expressions() if self.takes("=") else [])

    def read_return(self, place):
        return ("return", place, [] if self.is_over() or self.sees(";") else self.expressions())

    def read_break(self, place):
        return ("break", place)

    def body(self, method):
        names, variadic = ["self"] if method else [], False
        self.want("(")
        while not self.takes(")"):
            if self.takes("..."):
                variadic = True
            else:
                names.append(self.name())
            self.takes(",")
        return (names, variadic, self.closed())

    def expression(self, level=0):
        if level == len(LEVELS):
            return self.unary()
        left = self.expression(level + 1)
        while self.token.kind == "sign" and self.token.value in LEVELS[level]:
            sign = self.next()
            right = self.expression(level if sign.value == ".." else level + 1)
            left = ("binary", sign.place, sign.value, left, right)
            if sign.value == "..":
                break
        return left

    def unary(self):
        t = self.token
        if t.kind == "sign" and t.value in ("not", "#", "-"):
            self.next()
            return ("unary", t.place, t.value, self.unary())
        left = self.simple()
        if self.sees("^"):
            sign = self.next()
            return ("binary", sign.place, "^", left, self.unary())
        return left

    def simple(self):
        t = self.token
        if t.kind in ("number", "text"):
            self.next()
            return ("constant", t.place, t.value)
        if t.kind == "sign" and t.value in ("nil", "true", "false"):
            self.next()
            return ("constant", t.place, {"nil": None, "true": True, "false": False}[t.value])
        if self.takes("..."):
            return ("varargs", t.place)
        if self.takes("function"):
            return ("closure", t.place, self.body(False))
        if self.sees("{"):
            return self.table()
        return self.prefix()

    def table(self):
        place = self.want("{").place
        fields = []
        while not self.takes("}"):
            if self.takes("["):
                key = self.expression()
                self.want("]")
                self.want("=")
                fields.append((key, self.expression()))
            elif self.token.kind == "name" and self.sees_next("="):
                key = self.name().encode()
                self.want("=")
                fields.append((key, self.expression()))
            else:
                fields.append((None, self.expression()))
            if not self.takes(","):
                self.takes(";")
        return ("table", place, fields)

    def prefix(self):
        t = self.next()
        if t.kind == "name":
            e = ("name", t.place, t.value)
        elif t.value == "(":
            e = ("brackets", t.place, self.expression())
            self.want(")")
        else:
            raise SyntaxError("%r at %s" % (t.value, t.place))
        while True:
            t = self.token
            if self.takes("."):
                e = ("index", t.place, e, ("key", None, self.name().encode()))
            elif self.takes("["):
                e = ("index", t.place, e, self.expression())
                self.want("]")
            elif self.takes(":"):
                name = self.name().encode()
                e = ("method", t.place, e, name, self.arguments()[1])
            elif self.sees("(") or self.sees("{") or t.kind == "text":
                place, es = self.arguments()
                e = ("invoke", place, e, es)
            else:
                return e

    def arguments(self):
        t = self.token
        if t.kind == "text" or self.sees("{"):
            return (t.place, [self.simple()])
        self.want("(")
        es = [] if self.sees(")") else self.expressions()
        self.want(")")
        return (t.place, es)
