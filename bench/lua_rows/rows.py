#!/usr/bin/env python3
"""The rows of crates/lua_tests: writes its `stdin` and `stdout`.

What is expected of the first rows was written by hand, from the Lua 5.1 manual and from docs/LANGUAGE.md, "Lua in the profile". The
others are made at random, with this script's own reading of the same rules: arithmetic by Python's whole numbers, a table as a
dictionary, which keeps the order of first insertion as well.
"""

import random
import sys
from pathlib import Path

sys.dont_write_bytecode = True
sys.path.insert(1, str(Path(__file__).resolve().parents[1]))
import texts  # noqa: E402
from needs import needs  # noqa: E402

LARGEST = 99_999_999_999_999
CRATE = Path(__file__).resolve().parents[2] / "crates" / "lua_tests"

BY_HAND = r"""
-- ---- values: the kinds of the manual's section 2.2, and those of Terra
kind nil = nil
kind false = boolean
kind 7 = number
kind 'a = string
kind table:0 = table
kind function:0 = function
kind lib:print = function
kind terrafunction:0 = terrafunction
kind putbyte = terrafunction
kind terratype:0 = terratype
kind quote:0 = quote
kind symbol:0 = symbol
kind macro:0 = macro
kind global:0 = global
kind constant:0 = constant
truth nil = false
truth false = false
truth true = true
truth 0 = true
truth ' = true
same nil nil = true
same false nil = false
same 1 1 = true
same 1 -1 = false
same 1 table:1 = false
same table:1 symbol:1 = false
same 'a 'a = true
same 'a 'b = false
same lib:type lib:type = true
same lib:type lib:next = false
same write write = true
same write alloc = false
same putbyte terrafunction:0 = false
number 99999999999999 = 99999999999999
number -99999999999999 = -99999999999999
number 100000000000000 = out of profile
number -100000000000000 = out of profile
values nil 1 'b lib:array = nil 1 'b lib:array
values putbyte write alloc = putbyte write alloc
-- ---- the order of the library's functions, and of those that Terra's library gives
order putbyte = 0
order write = 1
order alloc = 2
order lib:assert = 0
order lib:error = 1
order lib:getmetatable = 2
order lib:ipairs = 3
order lib:next = 5
order lib:pairs = 6
order lib:pcall = 7
order lib:print = 8
order lib:rawequal = 9
order lib:rawget = 10
order lib:rawset = 11
order lib:select = 12
order lib:setmetatable = 13
order lib:tonumber = 14
order lib:tostring = 15
order lib:type = 16
order lib:unpack = 17
order lib:byte = 18
order lib:char = 19
order lib:format = 20
order lib:len = 21
order lib:rep = 22
order lib:sub = 23
order lib:concat = 24
order lib:insert = 25
order lib:remove = 26
order lib:field = 27
order lib:array = 28
order lib:pointer = 29
order lib:function = 30
order lib:symbol = 31
order lib:macro = 32
order lib:global = 33
order lib:constant = 34
order lib:sizeof = 35
order lib:offsetof = 36
order lib:newlist = 37
order lib:insertall = 39
order lib:map = 40
order lib:newstruct = 41
order lib:saveobj = 44
order lib:compile = 45
order lib:isdefined = 46
order lib:gettype = 47
order lib:isintegral = 48
order lib:islogical = 49
order lib:ispointer = 50
order lib:isarray = 51
order lib:isstruct = 52
-- ---- local t = {} t.a = 1 t[2] = 2 t[1] = 1 t.a = nil t[3] = 3 t.a = 9
table = table:0
border 0 = 0
walk 0 =
set 0 'a 1 = 0
set 0 2 2 = 0
set 0 1 1 = 2
set 0 'a nil = 2
walk 0 = 2 -> 2 1 -> 1
next 0 'a = 2 -> 2
set 0 3 3 = 3
set 0 'a 9 = 3
walk 0 = 'a -> 9 2 -> 2 1 -> 1 3 -> 3
next 0 nil = 'a -> 9
next 0 3 = last
next 0 7 = no key
set 0 2 nil = 1
next 0 'a = 1 -> 1
next 0 2 = 1 -> 1
get 0 2 = nil
get 0 3 = 3
-- ---- the least border (section 2.5.5): 1 to 5 with 3 emptied and set again
table = table:1
set 1 2 1 = 0
set 1 1 1 = 2
set 1 4 1 = 2
set 1 3 1 = 4
set 1 5 1 = 5
set 1 3 nil = 2
set 1 3 nil = 2
set 1 7 1 = 2
set 1 3 7 = 5
get 1 3 = 7
set 1 0 1 = 5
set 1 -1 1 = 5
set 1 -1 nil = 5
set 1 5 nil = 4
set 1 1 nil = 0
set 1 2 9 = 0
set 1 1 8 = 4
set 1 6 1 = 4
set 1 5 1 = 7
walk 1 = 2 -> 9 1 -> 8 4 -> 1 3 -> 7 5 -> 1 7 -> 1 0 -> 1 6 -> 1
-- ---- any value but nil is a key, and no two of these are the same
table = table:2
set 2 -1 1 = 0
set 2 0 2 = 0
set 2 false 4 = 0
set 2 true 5 = 0
set 2 table:0 6 = 0
set 2 table:1 7 = 0
set 2 99999999999999 9 = 0
set 2 -99999999999999 10 = 0
set 2 '1 11 = 0
set 2 lib:print 12 = 0
set 2 putbyte 13 = 0
set 2 terrafunction:0 14 = 0
set 2 1 3 = 1
set 2 nil 1 = nil key
get 2 -1 = 1
get 2 0 = 2
get 2 1 = 3
get 2 false = 4
get 2 true = 5
get 2 table:0 = 6
get 2 table:1 = 7
get 2 table:2 = nil
get 2 99999999999999 = 9
get 2 -99999999999999 = 10
get 2 '1 = 11
get 2 lib:print = 12
get 2 putbyte = 13
get 2 terrafunction:0 = 14
get 2 nil = nil
-- ---- a hundred thousand keys; one in the midst emptied and set again
fill 100000 50000 = sum 5000050000 border 100000 entries 100000 emptied 49999 again 100000
fill 100000 1 = sum 5000050000 border 100000 entries 100000 emptied 0 again 100000
fill 10 11 = sum 55 border 10 entries 10 emptied 10 again 11
fill 10 12 = sum 55 border 10 entries 10 emptied 10 again 10
fill 0 1 = sum 0 border 0 entries 0 emptied 0 again 1
-- ---- past the last table
get 99 1 = nil
set 99 1 1 = 0
border 99 = 0
next 99 nil = last
next 99 1 = no key
metatable 99 1 = none
-- ---- metatables
metatable 0 = none
metatable 0 1 = 1
metatable 0 = 1
metatable 0 none = none
-- ---- texts stand once. The rows above have four, in this order: a, the empty one, b, 1
find 'none = none
text 'twice = 4
text 'other = 5
text 'twice = 4
find 'other = 5
find 'twice = 4
long 65534 'a = 65535 bytes to a
long 65534 'b = 65535 bytes to b
long 65534 'a = 65535 bytes to a
text 'after = 8
long 65535 'a = nil
-- ---- cells, environments, functions, macros, what is printed, calls in progress
cell 7 = 0
cell 'c = 1
read_cell 0 = 7
set_cell 0 nil = nil
read_cell 0 = nil
read_cell 1 = 'c
set_cell 9 1 = nil
env 3 none = 0
env 5 0 = 1
block 0 = 3
block 1 = 5
block 9 = 0
outer 0 = none
outer 1 = 0
declared 1 =
declare 1 1 = 1
declare 1 0 = 1 0
declared 0 =
declared 1 = 1 0
cells 5 4 5 = 5 4 5
closure 9 1 = function:0
closure 8 0 = function:1
read_closure 0 = node 9 in 1
read_closure 1 = node 8 in 0
macro 1 = macro:0
macro 0 = macro:1
read_macro 0 = function:1
read_macro 1 = function:0
printed = '
print '1^J = '1^J
print '2^J = '1^J2^J
calls = 0
begin_call = 1
begin_call = 2
end_call = 1
end_call = 0
end_call = 0
-- ---- the library (section 5.1): what functions answer at a call at 3:7, the units that are left of those that there were, what is printed
call lib:print 9 = values left 8 '^J
call lib:print 9 'a = values left 8 'a^J
call lib:print 9 'a nil true false 12 -7 = values left 8 'a^Inil^Itrue^Ifalse^I12^I-7^J
call lib:print 9 table:0 function:2 lib:type symbol:4 putbyte = values left 7 'table:~1^Ifunction:~3^Ifunction:~type^Isymbol:~5^Iterrafunction:~putbyte^J
call lib:print 9 'aaaaaaaaaaaaaaaaaaaaaaaaaaaaaaaaaaaaaaaaaaaaaaaaaaaaaaaaaaaaaaa = values left 8 'aaaaaaaaaaaaaaaaaaaaaaaaaaaaaaaaaaaaaaaaaaaaaaaaaaaaaaaaaaaaaaa^J
call lib:print 9 'aaaaaaaaaaaaaaaaaaaaaaaaaaaaaaaaaaaaaaaaaaaaaaaaaaaaaaaaaaaaaaaa = values left 7 'aaaaaaaaaaaaaaaaaaaaaaaaaaaaaaaaaaaaaaaaaaaaaaaaaaaaaaaaaaaaaaaa^J
call lib:print 2 'aaaaaaaaaaaaaaaaaaaaaaaaaaaaaaaaaaaaaaaaaaaaaaaaaaaaaaaaaaaaaaaa = values left 0 'aaaaaaaaaaaaaaaaaaaaaaaaaaaaaaaaaaaaaaaaaaaaaaaaaaaaaaaaaaaaaaaa^J
call lib:print 1 'aaaaaaaaaaaaaaaaaaaaaaaaaaaaaaaaaaaaaaaaaaaaaaaaaaaaaaaaaaaaaaaa = spent left 1 '
call lib:print 0 = spent left 0 '
call lib:type 5 7 = values 'number left 4 '
call lib:type 5 nil 3 = values 'nil left 4 '
call lib:type 5 lib:print = values 'function left 4 '
call lib:type 5 putbyte = values 'terrafunction left 4 '
call lib:type 5 = raises '3:7:~bad~argument~1~to~type at 3:7 left 4 '
call lib:type 0 = spent left 0 '
call lib:type 0 nil = spent left 0 '
global '_G = table:0 '_VERSION -> 'Lua~5.1
global '_VERSION = 'Lua~5.1 'assert -> lib:assert
global 'print = lib:print 'rawequal -> lib:rawequal
global 'type = lib:type 'unpack -> lib:unpack
global 'string = table:1 'table -> table:2
global 'pcall = lib:pcall 'print -> lib:print
-- ---- arithmetic (section 2.5.1), exact: where no whole number of the profile is the result, it raises
+ 99999999999998 1 = 99999999999999
+ 99999999999999 1 = raises number out of profile
- -99999999999999 1 = raises number out of profile
- 3 5 = -2
* -3 0 = 0
* 10000000 10000000 = raises number out of profile
* 99999999999999 -99999999999999 = raises number out of profile
/ 6 3 = 2
/ -6 3 = -2
/ 10 4 = raises number out of profile
/ 0 0 = raises number out of profile
/ 1 0 = raises number out of profile
% 7 -3 = -2
% -7 3 = 2
% -7 -3 = -1
% 7 3 = 1
% 6 -3 = 0
% 5 0 = raises number out of profile
^ 2 46 = 70368744177664
^ 2 47 = raises number out of profile
^ -2 3 = -8
^ 0 0 = 1
^ 0 5 = 0
^ 0 -1 = raises number out of profile
^ 2 -1 = raises number out of profile
^ 1 -5 = 1
^ -1 -3 = -1
^ -1 99999999999998 = 1
^ 3 99999999999999 = raises number out of profile
minus 0 = 0
minus -99999999999999 = 99999999999999
minus '-5 = 5
minus '1. = raises number out of profile
minus table:0 = raises attempt to perform arithmetic on a table value
minus 5 table:0 = -5
+ '0x10 0 = 16
+ '0X10 0 = raises number out of profile
* '~12~ 2 = 24
+ '1e3 0 = raises number out of profile
+ 'abc 1 = raises attempt to perform arithmetic on a string value
+ table:0 'abc = raises attempt to perform arithmetic on a table value
+ 1 nil = raises attempt to perform arithmetic on a nil value
+ true table:0 = raises attempt to perform arithmetic on a boolean value
+ '1.5 table:0 = raises number out of profile
+ table:0 '1.5 = raises attempt to perform arithmetic on a table value
+ terratype:0 1 = raises attempt to perform arithmetic on a terratype value
-- ---- texts as numbers (section 2.2.1), of the forms that the profile has
numeral '0 = 0
numeral '-0 = 0
numeral '+7 = 7
numeral '^I^J^K^L^M~12~^I^J^K^L^M = 12
numeral '007 = 7
numeral '0xFf = 255
numeral '-0x10 = -16
numeral '99999999999999 = 99999999999999
numeral '-99999999999999 = -99999999999999
numeral '0x5af3107a3fff = 99999999999999
numeral '00000000000000000000000000000000000000000000000001 = 1
numeral '100000000000000 = out of profile
numeral '-100000000000000 = out of profile
numeral '0x5af3107a4000 = out of profile
numeral '184467440737095516160000000000000000000001 = out of profile
numeral '0X10 = out of profile
numeral '0x = out of profile
numeral '0xg = out of profile
numeral '1e3 = out of profile
numeral '1.0 = out of profile
numeral '.5 = out of profile
numeral '-.5 = out of profile
numeral '1~2 = out of profile
numeral '5x = out of profile
numeral ' = no number
numeral '~ = no number
numeral '- = no number
numeral '--1 = no number
numeral '-~1 = no number
numeral '+-1 = no number
numeral '. = no number
numeral '.x = no number
numeral 'x1 = no number
numeral 'e3 = no number
numeral 'ten = no number
-- ---- comparison (section 2.5.2)
< 'a 'b = true
< 'Z 'a = true
< ' 'a = true
< 'b 'aa = false
<= 'a 'a = true
< 'a 'a = false
< -1 0 = true
<= 2 2 = true
<= 3 2 = false
> 2 2 = false
> 10 9 = true
>= 2 3 = false
>= 'b 'b = true
== 'a 'a = true
== 0 '0 = false
~= 0 nil = true
== nil nil = true
~= table:0 table:0 = false
== table:0 table:1 = false
< 1 '2 = raises attempt to compare number with string
> 1 '2 = raises attempt to compare string with number
< table:0 table:0 = raises attempt to compare two table values
<= nil nil = raises attempt to compare two nil values
>= nil 1 = raises attempt to compare number with nil
< putbyte terrafunction:0 = raises attempt to compare two terrafunction values
-- ---- concatenation (section 2.5.4)
.. 1 2 = '12
.. 'a -5 = 'a-5
.. ' 'b = 'b
.. 99999999999999 'x = '99999999999999x
.. table:0 'x = raises attempt to concatenate a table value
.. 'x nil = raises attempt to concatenate a nil value
.. nil table:0 = raises attempt to concatenate a nil value
.. true 1 = raises attempt to concatenate a boolean value
-- ---- handlers (section 2.8): any value but nil is one, and the left operand's comes first. Table 3 has metatable 5, table 4 has 6
table = table:3
table = table:4
table = table:5
table = table:6
metatable 3 5 = 5
metatable 4 6 = 6
set 5 '__add false = 0
+ table:3 1 = calls false
+ 1 table:3 = calls false
+ table:3 table:4 = calls false
+ table:4 table:3 = calls false
+ table:4 1 = raises attempt to perform arithmetic on a table value
set 6 '__add lib:print = 0
+ table:3 table:4 = calls false
+ table:4 table:3 = calls lib:print
+ nil table:4 = calls lib:print
+ '1.5 table:4 = raises number out of profile
- table:4 1 = raises attempt to perform arithmetic on a table value
set 5 '__add nil = 0
+ table:3 table:4 = calls lib:print
set 5 '__sub 1 = 0
set 5 '__mul 2 = 0
set 5 '__div 3 = 0
set 5 '__mod 4 = 0
set 5 '__pow 5 = 0
set 5 '__unm 6 = 0
set 5 '__concat table:0 = 0
- table:3 0 = calls 1
* table:3 0 = calls 2
/ table:3 0 = calls 3
% table:3 0 = calls 4
^ table:3 0 = calls 5
minus table:3 = calls 6
minus table:4 table:3 = raises attempt to perform arithmetic on a table value
.. table:3 1 = calls table:0
.. 1 table:3 = calls table:0
.. nil table:3 = calls table:0
.. nil table:4 = raises attempt to concatenate a nil value
-- ---- handlers of comparison are those that both operands have. Without one for <=, the one for < is asked the other way round
set 5 '__lt function:0 = 0
< table:3 table:4 = raises attempt to compare two table values
set 6 '__lt function:1 = 0
< table:3 table:4 = raises attempt to compare two table values
set 6 '__lt function:0 = 0
< table:3 table:4 = calls function:0
> table:3 table:4 = calls function:0 swapped
<= table:3 table:4 = calls function:0 swapped negated
>= table:3 table:4 = calls function:0 negated
< table:3 1 = raises attempt to compare table with number
set 5 '__le table:0 = 0
<= table:3 table:4 = calls function:0 swapped negated
set 6 '__le table:0 = 0
<= table:3 table:4 = calls table:0
>= table:3 table:4 = calls table:0 swapped
== table:3 table:4 = false
~= table:3 table:4 = true
set 5 '__eq false = 0
== table:3 table:4 = false
set 6 '__eq false = 0
== table:3 table:4 = calls false
~= table:3 table:4 = calls false negated
== table:3 table:3 = true
== table:3 1 = false
-- ---- the texts of faults
fault profile = number out of profile
fault long = text too long
fault arithmetic nil = attempt to perform arithmetic on a nil value
fault concatenate boolean = attempt to concatenate a boolean value
fault two quote = attempt to compare two quote values
fault compare symbol macro = attempt to compare symbol with macro
fault call global = attempt to call a global value
fault index constant = attempt to index a constant value
fault length terratype = attempt to get length of a terratype value
fault nil_key = table index is nil
fault initial = 'for' initial value must be a number
fault limit = 'for' limit must be a number
fault step = 'for' step must be a number
fault overflow = stack overflow
fault calls_terra = CallsTerra
unless nil arithmetic nil = raises attempt to perform arithmetic on a nil value
unless false arithmetic nil = calls false
unless 1 concatenate table = calls 1
unless 1 two table = raises attempt to compare two table values
unless 1 profile = raises number out of profile
"""


def number_or_raise(value):
    if value is None or abs(value) > LARGEST:
        return "raises number out of profile"
    return str(value)


def power(a, b):
    if b >= 0:
        return a**b if abs(a) < 2 or b < 64 else None
    if a in (1, -1):
        return a ** (-b % 2)
    return None


def exact(operator, a, b):
    """The whole number that an operator gives, where there is one."""
    if operator == "+":
        return a + b
    if operator == "-":
        return a - b
    if operator == "*":
        return a * b
    if operator == "^":
        return power(a, b)
    if b == 0:
        return None
    if operator == "/":
        return a // b if a % b == 0 else None
    return a % b


def arithmetic(rng):
    """Rows of numbers of all sizes; Python's // and % round down as Lua's do."""
    sizes = [3, 10, 1000, 10_000_000, LARGEST]
    for _ in range(150):
        a, b = (rng.randint(-n, n) for n in (rng.choice(sizes), rng.choice(sizes)))
        operator = rng.choice("+-*/%^")
        if operator == "^":
            a, b = rng.randint(-12, 12), rng.randint(-3, 40)
        yield f"{operator} {a} {b}", number_or_raise(exact(operator, a, b))
        relation = rng.choice(["<", "<=", ">", ">=", "==", "~="])
        holds = {"<": a < b, "<=": a <= b, ">": a > b, ">=": a >= b, "==": a == b, "~=": a != b}[relation]
        yield f"{relation} {a} {b}", str(holds).lower()


def least_border(table):
    n = 0
    while table.get(str(n + 1), "nil") != "nil":
        n += 1
    return n


def entry(table, keys):
    for key in keys:
        if table[key] != "nil":
            return f"{key} -> {table[key]}"
    return "last"


def tables(rng, first):
    """Rows of a few tables with keys of all kinds. A key that was emptied keeps its place."""
    others = ["0", "-1", "true", "false", "'k", "'1", "table:0", "lib:next", "write"]
    for number in range(first, first + 4):
        table = {}
        yield "table", f"table:{number}"
        for turn in range(120):
            key = str(rng.randint(1, 9)) if rng.random() < 0.8 else rng.choice(others)
            value = rng.choice(["nil", "nil", "true", str(turn)])
            if value != "nil" or key in table:
                table[key] = value
            yield f"set {number} {key} {value}", str(least_border(table))
            key = str(rng.randint(1, 10)) if rng.random() < 0.7 else rng.choice(others)
            yield f"get {number} {key}", table.get(key, "nil")
            if turn % 8 == 0:
                keys = list(table)
                after = entry(table, keys[keys.index(key) + 1 :]) if key in table else "no key"
                yield f"next {number} {key}", after
                yield f"walk {number}", " ".join(f"{k} -> {v}" for k, v in table.items() if v != "nil")


def main():
    needs("lua5.1")
    rng = random.Random(19)
    rows = list(texts.rows_in(BY_HAND)) + list(arithmetic(rng)) + list(tables(rng, 7)) + texts.rows(rng, 11)
    calls = [("begin_call", str(min(count, 200))) for count in range(1, 203)]
    rows += calls
    (CRATE / "stdin").write_text("".join(f"{row}\n" for row, _ in rows))
    (CRATE / "stdout").write_text("".join(f"{row} = {answer}\n" for row, answer in rows))


if __name__ == "__main__":
    main()
