"""Rows of Lua's functions on texts and on tables, for `rows.py`.

What is expected of the first rows was written by hand, from docs/LANGUAGE.md. The others are calls made at random whose values are those
of Debian's `lua5.1`, which runs while the rows are written; what they pay is this script's own reading of the rules.
"""

import subprocess

LONGEST = 65_535

BY_HAND = r"""
-- ---- len, sub: places from the begin, from the end, and outside; a number counts as its text
call lib:len 9 'abc = values 3 left 9 '
call lib:len 9 ' = values 0 left 9 '
call lib:len 9 -12 = values 3 left 9 '
call lib:len 9 x:65535 = values 65535 left 9 '
call lib:len 9 = raises '3:7:~bad~argument~1~to~len at 3:7 left 8 '
call lib:len 0 nil = spent left 0 '
call lib:len 9 table:0 = raises '3:7:~bad~argument~1~to~len at 3:7 left 8 '
call lib:sub 9 'abcdef 2 4 = values 'bcd left 8 '
call lib:sub 9 'abcdef 2 = values 'bcdef left 8 '
call lib:sub 9 'abcdef 2 nil = values 'bcdef left 8 '
call lib:sub 9 'abcdef 0 = values 'abcdef left 8 '
call lib:sub 9 'abcdef 0 0 = values ' left 9 '
call lib:sub 9 'abcdef -2 = values 'ef left 8 '
call lib:sub 9 'abcdef -6 -6 = values 'a left 8 '
call lib:sub 9 'abcdef -7 -6 = values 'a left 8 '
call lib:sub 9 'abcdef -9 -7 = values ' left 9 '
call lib:sub 9 'abcdef 4 3 = values ' left 9 '
call lib:sub 9 'abcdef 6 6 = values 'f left 8 '
call lib:sub 9 'abcdef 7 = values ' left 9 '
call lib:sub 9 'abcdef 1 99999999999999 = values 'abcdef left 8 '
call lib:sub 9 'abcdef -99999999999999 -1 = values 'abcdef left 8 '
call lib:sub 9 'abcdef '2 '0x3 = values 'bc left 8 '
call lib:sub 9 -12 1 1 = values '- left 8 '
call lib:sub 9 ' 1 -1 = values ' left 9 '
call lib:sub 2 x:65535 1 65 = values 'xxxxxxxxxxxxxxxxxxxxxxxxxxxxxxxxxxxxxxxxxxxxxxxxxxxxxxxxxxxxxxxxx left 0 '
call lib:sub 1 x:65535 1 65 = spent left 1 '
call lib:sub 1023 x:65535 1 = spent left 1023 '
call lib:sub 1024 x:65535 1 = values 65535 bytes to x left 0 '
call lib:sub 9 nil 1 = raises '3:7:~bad~argument~1~to~sub at 3:7 left 8 '
call lib:sub 9 'abc = raises '3:7:~bad~argument~2~to~sub at 3:7 left 8 '
call lib:sub 9 'abc nil = raises '3:7:~bad~argument~2~to~sub at 3:7 left 8 '
call lib:sub 9 'abc '1.5 = raises '3:7:~bad~argument~2~to~sub at 3:7 left 8 '
call lib:sub 9 'abc 1 'x = raises '3:7:~bad~argument~3~to~sub at 3:7 left 8 '
call lib:sub 9 nil nil 'x = raises '3:7:~bad~argument~1~to~sub at 3:7 left 8 '
-- ---- byte: the first one, or a part; its values are no texts, and free
call lib:byte 0 'abc = values 97 left 0 '
call lib:byte 0 'abc 3 = values 99 left 0 '
call lib:byte 0 'abc 4 = values left 0 '
call lib:byte 0 'abc 0 = values left 0 '
call lib:byte 0 'abc -1 = values 99 left 0 '
call lib:byte 0 'abc -4 = values left 0 '
call lib:byte 0 'abc 2 -1 = values 98 99 left 0 '
call lib:byte 0 'abc -99999999999999 99999999999999 = values 97 98 99 left 0 '
call lib:byte 0 'abc nil nil = values 97 left 0 '
call lib:byte 0 'abc nil 2 = values 97 98 left 0 '
call lib:byte 0 12 1 2 = values 49 50 left 0 '
call lib:byte 0 ' 1 9 = values left 0 '
call lib:byte 9 = raises '3:7:~bad~argument~1~to~byte at 3:7 left 8 '
call lib:byte 9 'a true = raises '3:7:~bad~argument~2~to~byte at 3:7 left 8 '
call lib:byte 9 'a 1 table:0 = raises '3:7:~bad~argument~3~to~byte at 3:7 left 8 '
-- ---- rep: it is paid for before it is made, and nothing longer than texts is made
call lib:rep 9 'ab 3 = values 'ababab left 8 '
call lib:rep 9 'ab 0 = values ' left 9 '
call lib:rep 9 'ab -1 = values ' left 9 '
call lib:rep 9 'ab -99999999999999 = values ' left 9 '
call lib:rep 9 ' 99999999999999 = values ' left 9 '
call lib:rep 9 12 '2 = values '1212 left 8 '
call lib:rep 9 'x 64 = values 'xxxxxxxxxxxxxxxxxxxxxxxxxxxxxxxxxxxxxxxxxxxxxxxxxxxxxxxxxxxxxxxx left 8 '
call lib:rep 2 'x 128 = values 128 bytes to x left 0 '
call lib:rep 1 'x 128 = spent left 1 '
call lib:rep 2000 'x 65535 = values 65535 bytes to x left 976 '
call lib:rep 1023 'x 65535 = spent left 1023 '
call lib:rep 9 'x 65536 = raises '3:7:~text~too~long at 3:7 left 8 '
call lib:rep 9 'xyz 21846 = raises '3:7:~text~too~long at 3:7 left 8 '
call lib:rep 9 'x 99999999999999 = raises '3:7:~text~too~long at 3:7 left 8 '
call lib:rep 9 x:65535 99999999999999 = raises '3:7:~text~too~long at 3:7 left 8 '
call lib:rep 0 'x 99999999999999 = spent left 0 '
call lib:rep 9 true 2 = raises '3:7:~bad~argument~1~to~rep at 3:7 left 8 '
call lib:rep 9 'x = raises '3:7:~bad~argument~2~to~rep at 3:7 left 8 '
call lib:rep 9 'x '1.5 = raises '3:7:~bad~argument~2~to~rep at 3:7 left 8 '
-- ---- char
call lib:char 9 = values ' left 9 '
call lib:char 9 97 '98 99 = values 'abc left 8 '
call lib:char 9 9 32 = values '^I~ left 8 '
call lib:char 0 97 = spent left 0 '
call lib:char 9 256 = raises '3:7:~bad~argument~1~to~char at 3:7 left 8 '
call lib:char 9 97 -1 300 = raises '3:7:~bad~argument~2~to~char at 3:7 left 8 '
call lib:char 9 97 98 nil = raises '3:7:~bad~argument~3~to~char at 3:7 left 8 '
call lib:char 9 97 'a = raises '3:7:~bad~argument~2~to~char at 3:7 left 8 '
-- ---- format: from left to right, the first thing that is wrong counts
call lib:format 9 'a~%d~b~%s~%% 7 'c = values 'a~7~b~c~% left 8 '
call lib:format 9 'plain = values 'plain left 8 '
call lib:format 9 ' = values ' left 9 '
call lib:format 9 '%d%s '-0x10 12 = values '-1612 left 8 '
call lib:format 9 '%s ' = values ' left 9 '
call lib:format 9 '%%%%d = values '%%d left 8 '
call lib:format 9 5 'unread = values '5 left 8 '
call lib:format 0 'a = spent left 0 '
call lib:format 9 = raises '3:7:~bad~argument~1~to~format at 3:7 left 8 '
call lib:format 9 '% = raises '3:7:~bad~argument~1~to~format at 3:7 left 8 '
call lib:format 9 'a%%% = raises '3:7:~bad~argument~1~to~format at 3:7 left 8 '
call lib:format 9 '%x 1 = raises '3:7:~bad~argument~1~to~format at 3:7 left 8 '
call lib:format 9 '%5d 1 = raises '3:7:~bad~argument~1~to~format at 3:7 left 8 '
call lib:format 9 '%d%s 1 = raises '3:7:~bad~argument~3~to~format at 3:7 left 8 '
call lib:format 9 '%d = raises '3:7:~bad~argument~2~to~format at 3:7 left 8 '
call lib:format 9 '%d '1.5 = raises '3:7:~bad~argument~2~to~format at 3:7 left 8 '
call lib:format 9 '%s nil = raises '3:7:~bad~argument~2~to~format at 3:7 left 8 '
call lib:format 9 '%s true = raises '3:7:~bad~argument~2~to~format at 3:7 left 8 '
call lib:format 9 '%d%x 'a = raises '3:7:~bad~argument~2~to~format at 3:7 left 8 '
call lib:format 1024 '%s x:65535 = values 65535 bytes to x left 0 '
call lib:format 9 '%s%s x:65535 'y = raises '3:7:~text~too~long at 3:7 left 8 '
call lib:format 9 '%sy x:65535 = raises '3:7:~text~too~long at 3:7 left 8 '
call lib:format 9 '%s%sy%s x:65535 ' nil = raises '3:7:~text~too~long at 3:7 left 8 '
-- ---- concat: each value is paid for as it is read, and the text when it is made. The table A has a, 2, ccc, and then a gap and false
table = table:A
set A 1 'a = 1
set A 2 2 = 2
set A 3 'ccc = 3
set A 5 false = 3
call lib:concat 9 table:A = values 'a2ccc left 5 '
call lib:concat 9 table:A ', = values 'a,2,ccc left 5 '
call lib:concat 9 table:A nil nil nil = values 'a2ccc left 5 '
call lib:concat 9 table:A 7 = values 'a727ccc left 5 '
call lib:concat 9 table:A ', 2 = values '2,ccc left 6 '
call lib:concat 9 table:A ', 2 2 = values '2 left 7 '
call lib:concat 9 table:A ', 3 2 = values ' left 9 '
call lib:concat 9 table:A ', 4 = values ' left 9 '
call lib:concat 9 table:A ', 1 4 = raises '3:7:~bad~argument~1~to~concat at 3:7 left 4 '
call lib:concat 9 table:A ', 5 5 = raises '3:7:~bad~argument~1~to~concat at 3:7 left 7 '
call lib:concat 9 table:A ', 0 3 = raises '3:7:~bad~argument~1~to~concat at 3:7 left 7 '
call lib:concat 9 table:A ', -99999999999999 99999999999999 = raises '3:7:~bad~argument~1~to~concat at 3:7 left 7 '
call lib:concat 4 table:A = values 'a2ccc left 0 '
call lib:concat 3 table:A = spent left 0 '
call lib:concat 2 table:A = spent left 0 '
call lib:concat 9 = raises '3:7:~bad~argument~1~to~concat at 3:7 left 8 '
call lib:concat 9 'x = raises '3:7:~bad~argument~1~to~concat at 3:7 left 8 '
call lib:concat 9 table:A true = raises '3:7:~bad~argument~2~to~concat at 3:7 left 8 '
call lib:concat 9 table:A ' 'x = raises '3:7:~bad~argument~3~to~concat at 3:7 left 8 '
call lib:concat 9 table:A ' 1 '1.5 = raises '3:7:~bad~argument~4~to~concat at 3:7 left 8 '
set A 1 x:65535 = 3
set A 2 ' = 3
call lib:concat 9 table:A ' 1 2 = spent left 7 '
call lib:concat 1026 table:A ' 1 2 = values 65535 bytes to x left 0 '
call lib:concat 9 table:A 'y 1 2 = raises '3:7:~text~too~long at 3:7 left 6 '
call lib:concat 9 table:A = raises '3:7:~text~too~long at 3:7 left 5 '
-- ---- insert: behind the end, in the middle, at the begin, beyond and before. The table B has b
table = table:B
call lib:insert 9 table:B 'b = values left 8 '
walk B = 1 -> 'b
call lib:insert 9 table:B 'd = values left 8 '
call lib:insert 9 table:B 2 'c = values left 7 '
call lib:insert 9 table:B '1 'a = values left 5 '
walk B = 1 -> 'a 2 -> 'b 3 -> 'c 4 -> 'd
call lib:insert 9 table:B 5 'e = values left 8 '
call lib:insert 0 table:B 'f = spent left 0 '
call lib:insert 4 table:B 2 'x = spent left 4 '
walk B = 1 -> 'a 2 -> 'b 3 -> 'c 4 -> 'd 5 -> 'e
call lib:insert 9 table:B 9 'z = values left 8 '
border B = 5
walk B = 1 -> 'a 2 -> 'b 3 -> 'c 4 -> 'd 5 -> 'e 9 -> 'z
call lib:insert 9 table:B 0 'o = values left 2 '
walk B = 2 -> 'a 3 -> 'b 4 -> 'c 5 -> 'd 9 -> 'z 6 -> 'e 0 -> 'o
border B = 0
call lib:insert 9 table:B nil = values left 8 '
border B = 0
call lib:insert 9 table:B -99999999999999 'x = spent left 9 '
call lib:insert 9 table:B 99999999999999 'y = values left 8 '
get B 99999999999999 = 'y
call lib:insert 9 = raises '3:7:~bad~argument~1~to~insert at 3:7 left 8 '
call lib:insert 9 'x 1 = raises '3:7:~bad~argument~1~to~insert at 3:7 left 8 '
call lib:insert 9 table:B = raises '3:7:~bad~argument~2~to~insert at 3:7 left 8 '
call lib:insert 9 table:B 'x 1 = raises '3:7:~bad~argument~2~to~insert at 3:7 left 8 '
call lib:insert 9 table:B 'x 1 2 = raises '3:7:~bad~argument~2~to~insert at 3:7 left 8 '
call lib:insert 9 table:B 1 2 3 = raises '3:7:~bad~argument~4~to~insert at 3:7 left 8 '
-- ---- remove: the last one, one in the middle, the first one, of an empty list, outside. The table C has a to d
table = table:C
call lib:remove 0 table:C = values left 0 '
call lib:remove 0 table:C 0 = values left 0 '
call lib:remove 0 table:C 1 = values left 0 '
set C 1 'a = 1
set C 2 'b = 2
set C 3 'c = 3
set C 4 'd = 4
call lib:remove 9 table:C 5 = values left 9 '
call lib:remove 9 table:C -1 = values left 9 '
call lib:remove 9 table:C = values 'd left 8 '
call lib:remove 2 table:C 1 = spent left 2 '
walk C = 1 -> 'a 2 -> 'b 3 -> 'c
call lib:remove 3 table:C 1 = values 'a left 0 '
walk C = 1 -> 'b 2 -> 'c
call lib:remove 9 table:C nil = values 'c left 8 '
call lib:remove 9 table:C '1 = values 'b left 8 '
border C = 0
walk C =
call lib:remove 9 = raises '3:7:~bad~argument~1~to~remove at 3:7 left 8 '
call lib:remove 9 table:C true = raises '3:7:~bad~argument~2~to~remove at 3:7 left 8 '
call lib:print 9 'after = values left 8 'after^J
"""

# What each call of a batch answers, one line each: its values as the words of rows, or `error N`, N being the argument that is blamed.
LUA = """
local function word(v)
  if type(v) == "string" then return "'" .. v:gsub(" ", "~") end
  return tostring(v)
end
local function answer(f, ...)
  local r = {n = select("#", pcall(f, ...)), pcall(f, ...)}
  if not r[1] then
    print("error " .. (r[2]:match("bad argument #(%d+)") or (r[2]:match("invalid option") and 1) or (r[2]:match("invalid value") and 1)))
    return
  end
  local words = {"values"}
  for i = 2, r.n do words[i] = (word(r[i])) end
  print(table.concat(words, " "))
end
"""


def ask_lua(script):
    done = subprocess.run(["lua5.1", "-"], input=script, capture_output=True, text=True, check=True)
    return done.stdout.splitlines()


def lua_word(word):
    """The word of a row as Lua writes the value."""
    if word.startswith("'"):
        return '"' + word[1:].replace("~", " ") + '"'
    return word


def units_of(count):
    return (count + 63) // 64


def paid(answer, units, name, before=0, is_text=True):
    """A row's answer, with the units that are left: `before` are paid first, and then those of the text that is made."""
    kind, _, rest = answer.partition(" ")
    if kind == "error":
        text = f"raises '3:7:~bad~argument~{rest}~to~{name} at 3:7"
        more = 1
    else:
        text = answer
        more = units_of(len(rest) - 1) if is_text else 0
    if before > units:
        return f"spent left {0 if name == 'concat' else units} '"
    if more > units - before:
        return f"spent left {units - before} '"
    return f"{text} left {units - before - more} '"


def random_texts(rng):
    """Calls of the functions on texts, with what lua5.1 answers."""
    words = ["'", "'a", "'abc", "'hello~world", "'12", "'0x1f", "-7", "0", "12345", "nil", "true"]
    numbers = ["0", "1", "2", "3", "5", "11", "-1", "-2", "-3", "-11", "-12", "99", "'2", "'-1", "nil", "'x"]
    formats = ["'%d", "'%s", "'%d-%s", "'%s%s%%", "'%q", "'%", "'a~%s~b", "'%d%d%d", "'none"]
    calls = []
    for _ in range(400):
        name = rng.choice(["sub", "sub", "byte", "byte", "rep", "len", "char", "format"])
        if name in ("sub", "byte"):
            args = [rng.choice(words)] + [rng.choice(numbers) for _ in range(rng.randint(0, 3))]
        elif name == "rep":
            args = [rng.choice(words)] + [rng.choice(["0", "1", "2", "7", "-1", "'3", "nil"]) for _ in range(rng.randint(0, 2))]
        elif name == "len":
            args = [rng.choice(words) for _ in range(rng.randint(0, 2))]
        elif name == "char":
            codes = ["65", "97", "122", "'48", "256", "-1", "'a"]
            args = [rng.choices(codes, [9, 9, 9, 9, 1, 1, 1])[0] for _ in range(rng.randint(0, 6))]
        else:
            args = [rng.choice(formats)] + [rng.choice(words) for _ in range(rng.randint(0, 3))]
        calls.append((name, args, rng.choice([0, 1, 9])))
    script = "".join(f"answer({', '.join(['string.' + name] + [lua_word(w) for w in args])})\n" for name, args, _ in calls)
    for (name, args, units), answer in zip(calls, ask_lua(LUA + script), strict=True):
        # lua5.1 takes what it calls `%q` as well
        if name == "format" and args[0] == "'%q":
            answer = "error 1"
        row = " ".join(["call", f"lib:{name}", str(units)] + args)
        yield row, paid(answer, units, name, is_text=name in ("sub", "rep", "char", "format"))


def random_lists(rng, table):
    """Calls of the functions on tables, with lists that have no gaps, and what lua5.1 answers."""
    yield "table", f"table:{table}"
    script, rows, size = "local t = {}\n", [], 0
    for turn in range(300):
        name = rng.choice(["insert", "insert", "remove", "concat"])
        if name == "insert" and size < 12:
            at = rng.randint(1, size + 1)
            args = [f"'v{turn}"] if rng.random() < 0.3 else [str(at), f"'v{turn}"]
            moved = 1 if len(args) == 1 else size + 2 - at
            size += 1
        elif name == "concat":
            first, last = rng.randint(1, 4), rng.randint(0, size)
            args = [rng.choice(["',", "'", "'~and~", "1"]), str(first), str(last)][: rng.randint(0, 3)]
            first = first if len(args) > 1 else 1
            last = last if len(args) > 2 else size
            moved = max(last - first + 1, 0)
        else:
            name = "remove"
            at = rng.randint(0, size + 1)
            args = [] if rng.random() < 0.3 else [str(at)]
            at = at if args else size
            moved = size - at + 1 if 1 <= at <= size else 0
            size -= 1 if moved else 0
        script += f"print((table.concat({{'values', (function(...) local r = {{...}} for i = 1, #r do r[i] = word(r[i]) end return unpack(r) end)(table.{name}({', '.join(['t'] + [lua_word(w) for w in args])}))}}, ' ')))\n"
        rows.append((name, args, moved, size))
    for (name, args, moved, size), answer in zip(rows, ask_lua(LUA + script), strict=True):
        made = units_of(len(answer.partition(" ")[2]) - 1) if name == "concat" else 0
        units = moved + made + rng.randint(0, 3)
        if answer == "values":
            answer = "values '" if name == "concat" else "values"
        row = " ".join(["call", f"lib:{name}", str(units), f"table:{table}"] + args)
        yield row, paid(answer, units, name, before=moved, is_text=name == "concat")
        yield f"border {table}", str(size)


def rows_in(text):
    """Yields the rows of a text with their answers, behind the last ` =`, as operators may be `==`."""
    for line in text.strip().splitlines():
        if line.startswith("--"):
            continue
        row, _, answer = line.rpartition(" = ")
        if not row:
            row, answer = line.removesuffix(" ="), ""
        yield row, answer


def by_hand(first):
    for row, answer in rows_in(BY_HAND):
        words = []
        for word in row.split(" "):
            words.append({"A": str(first), "B": str(first + 1), "C": str(first + 2)}.get(word, word))
        row = " ".join(words)
        for letter, number in (("A", first), ("B", first + 1), ("C", first + 2)):
            row = row.replace(f"table:{letter}", f"table:{number}")
            answer = answer.replace(f"table:{letter}", f"table:{number}")
        yield row, answer


def rows(rng, first):
    """All rows; the tables that they make have these numbers on."""
    return list(by_hand(first)) + list(random_texts(rng)) + list(random_lists(rng, first + 3))
