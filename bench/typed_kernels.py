"""Ten small programs as they are written for speed, each with the arguments of one run.

Their typed terms are made by hand.
"""
from typed_terms import *  # noqa: F403


def up(x, t, by=1):
    return put([V(x, t)], [B("+", V(x, t), N(t, by))])


def fresh(count):
    return [next(names) for _ in range(count)]


def recursion():
    # terra fib(n : int) : int if n < 2 then return n end return fib(n - 1) + fib(n - 2) end
    n, f = next(names), len(functions)
    again = lambda by: call(f, I32, B("-", V(n, I32), N(I32, by)))
    fn(I32, [(n, I32)], cond(B("<", V(n, I32), N(I32, 2)), [give(V(n, I32))]), give(B("+", again(1), again(2))))
    return f, (12,)


def sums():
    # terra sum(n : int) : int64 var s : int64 = 0 for i = 1, n + 1 do s = s + i end return s end
    n, s, i = fresh(3)
    f = fn(I64, [(n, I32)], var([(s, I64)], N(I64, 0)),
           count((i, I32), [N(I32, 1), B("+", V(n, I32), N(I32, 1))],
                 [put([V(s, I64)], [B("+", V(s, I64), op("convert", I64, V(i, I32)))])]), give(V(s, I64)))
    return f, (100,)


def dot_product():
    # terra dot(a : &int, b : &int, n : int) : int64
    #   var s : int64 = 0 for i = 0, n do s = s + int64(a[i]) * int64(b[i]) end return s end
    at = pointer(I32)
    a, b, n, s, i = fresh(5)
    item = lambda p: op("convert", I64, index(V(p, at), V(i, I32), I32))
    f = fn(I64, [(a, at), (b, at), (n, I32)], var([(s, I64)], N(I64, 0)),
           count((i, I32), [N(I32, 0), V(n, I32)], [put([V(s, I64)], [B("+", V(s, I64), B("*", item(a), item(b)))])]),
           give(V(s, I64)))
    data = given_bytes(b"".join((k * 1000003 % (1 << 32)).to_bytes(4, "little") for k in range(20)))
    return f, (data, data + 40, 10)


def byte_loop():
    # terra upper(p : &uint8, n : int) : int
    #   var changed = 0
    #   for i = 0, n do
    #     var c = p[i] if c >= 97 and c <= 122 then p[i] = c - 32 changed = changed + 1 end end return changed end
    at = pointer(U8)
    p, n, changed, i, c = fresh(5)
    small = both(B(">=", V(c, U8), N(U8, 97)), B("<=", V(c, U8), N(U8, 122)))
    f = fn(I32, [(p, at), (n, I32)], var([(changed, I32)], N(I32, 0)),
           count((i, I32), [N(I32, 0), V(n, I32)],
                 [var([(c, U8)], index(V(p, at), V(i, I32), U8)),
                  cond(small, [put([index(V(p, at), V(i, I32), U8)], [B("-", V(c, U8), N(U8, 32))]),
                               up(changed, I32)])]),
           give(V(changed, I32)))
    return f, (given_bytes(b"Ten small Programs"), 18)


def gcd():
    # terra gcd(a : uint, b : uint) : uint while b ~= 0 do a, b = b, a % b end return a end
    a, b = fresh(2)
    f = fn(U32, [(a, U32), (b, U32)],
           loop(B("~=", V(b, U32), N(U32, 0)),
                [put([V(a, U32), V(b, U32)], [V(b, U32), B("%", V(a, U32), V(b, U32))])]),
           give(V(a, U32)))
    return f, (1071, 462)


def matrix_product():
    # terra product(a : &int, b : &int, c : &int, n : int) : int
    #   for i = 0, n do for j = 0, n do
    #     var s = 0 for k = 0, n do s = s + a[i * n + k] * b[k * n + j] end c[i * n + j] = s end end return c[n * n - 1] end
    at = pointer(I32)
    a, b, c, n, s, i, j, k = fresh(8)
    item = lambda p, x, y: index(V(p, at), B("+", B("*", V(x, I32), V(n, I32)), V(y, I32)), I32)
    span = lambda: [N(I32, 0), V(n, I32)]
    inner = count((k, I32), span(), [put([V(s, I32)], [B("+", V(s, I32), B("*", item(a, i, k), item(b, k, j)))])])
    last = index(V(c, at), B("-", B("*", V(n, I32), V(n, I32)), N(I32, 1)), I32)
    f = fn(I32, [(a, at), (b, at), (c, at), (n, I32)],
           count((i, I32), span(),
                 [count((j, I32), span(), [var([(s, I32)], N(I32, 0)), inner, put([item(c, i, j)], [V(s, I32)])])]),
           give(last))
    data = given_bytes(b"".join((k * 7 % 23).to_bytes(4, "little") for k in range(48)))
    return f, (data, data + 64, data + 128, 4)


def bit_trick():
    # terra ones(x : uint64) : int
    #   x = x - ((x >> 1) and 0x5555555555555555ULL)
    #   x = (x and 0x3333333333333333ULL) + ((x >> 2) and 0x3333333333333333ULL)
    #   x = (x + (x >> 4)) and 0x0f0f0f0f0f0f0f0fULL return int((x * 0x0101010101010101ULL) >> 56) end
    x = next(names)
    X = lambda: V(x, U64)
    part = lambda e, mask: B("and", e, N(U64, mask * 0x0101010101010101))
    right = lambda n: B(">>", X(), N(U64, n))
    f = fn(I32, [(x, U64)], put([X()], [B("-", X(), part(right(1), 0x55))]),
           put([X()], [B("+", part(X(), 0x33), part(right(2), 0x33))]), put([X()], [part(B("+", X(), right(4)), 0x0F)]),
           give(op("convert", I32, B(">>", B("*", X(), N(U64, 0x0101010101010101)), N(U64, 56)))))
    return f, (0xDEADBEEF12345678,)


def copies():
    # terra copy(to : &uint8, from : &uint8, n : int64) : {}
    #   while n > 0 do @to = @from to = to + 1 from = from + 1 n = n - 1 end terralib.write(to - 9, 9) end
    at = pointer(U8)
    to, from_, n = fresh(3)
    step = lambda p: put([V(p, at)], [op("forward", at, V(p, at), N(I64, 1))])
    f = fn(UNIT, [(to, at), (from_, at), (n, I64)],
           loop(B(">", V(n, I64), N(I64, 0)),
                [put([deref(V(to, at), U8)], [deref(V(from_, at), U8)]), step(to), step(from_),
                 put([V(n, I64)], [B("-", V(n, I64), N(I64, 1))])]),
           perform(op("write", UNIT, op("back", at, V(to, at), N(I64, 9)), N(I64, 9))))
    return f, (FIRST + 8192, given_bytes(b"nine here"), 9)


def checksum():
    # terra adler(p : &uint8, n : int) : uint
    #   var a, b : uint = 1, 0
    #   for i = 0, n do a = (a + p[i]) % 65521 b = (b + a) % 65521 end return (b << 16) or a end
    at = pointer(U8)
    p, n, a, b, i = fresh(5)
    added = lambda x, e: put([V(x, U32)], [B("%", B("+", V(x, U32), e), N(U32, 65521))])
    f = fn(U32, [(p, at), (n, I32)], var([(a, U32), (b, U32)], N(U32, 1), N(U32, 0)),
           count((i, I32), [N(I32, 0), V(n, I32)],
                 [added(a, op("convert", U32, index(V(p, at), V(i, I32), U8))), added(b, V(a, U32))]),
           give(B("or", B("<<", V(b, U32), N(U32, 16)), V(a, U32))))
    return f, (given_bytes(b"Wikipedia"), 9)


def queens():
    # terra queens(all : uint, columns : uint, left : uint, right : uint) : int
    #   if columns == all then return 1 end
    #   var free, found = all and not (columns or left or right), 0
    #   while free ~= 0 do
    #     var bit = free and -free free = free - bit
    #     found = found + queens(all, columns or bit, (left or bit) << 1, (right or bit) >> 1) end return found end
    whole, columns, left, right, free, found, bit = fresh(7)
    f = len(functions)
    v = lambda x: V(x, U32)
    taken = B("or", B("or", v(columns), v(left)), v(right))
    again = call(f, I32, v(whole), B("or", v(columns), v(bit)), B("<<", B("or", v(left), v(bit)), N(U32, 1)),
                 B(">>", B("or", v(right), v(bit)), N(U32, 1)))
    fn(I32, [(x, U32) for x in (whole, columns, left, right)], cond(B("==", v(columns), v(whole)), [give(N(I32, 1))]),
       var([(free, U32), (found, I32)], B("and", v(whole), op("not", U32, taken)), N(I32, 0)),
       loop(B("~=", v(free), N(U32, 0)),
            [var([(bit, U32)], B("and", v(free), op("neg", U32, v(free)))), put([v(free)], [B("-", v(free), v(bit))]),
             put([V(found, I32)], [B("+", V(found, I32), again)])]), give(V(found, I32)))
    return f, (63, 0, 0, 0)


# Their names, and what each returns where that is known from elsewhere.
KERNELS = [("recursion", recursion, "144"), ("sums", sums, "5050"), ("dot product", dot_product, None),
           ("byte loop", byte_loop, "14"), ("gcd", gcd, "21"), ("matrix product", matrix_product, None),
           ("bit trick", bit_trick, "37"), ("copies", copies, "0"), ("checksum", checksum, str(0x11E60398)),
           ("queens", queens, "4")]
