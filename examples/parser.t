-- A parser of bytes: the sum of the numbers of a list, and where it goes wrong.
-- terrac run main: prints `bad byte at 8`, result 319
local function put(text)
  local bytes = terralib.newlist()
  for i = 1, #text do
    local byte = text:byte(i)
    bytes:insert(`terralib.putbyte(byte))
  end
  return bytes
end

struct Parsed { sum : int64; bad : int }

terra parse(text : rawstring) : Parsed
  var sum : int64, number : int64 = 0, 0
  var it : Parsed
  it.bad = -1
  var i = 0
  while text[i] ~= 0 do
    var byte = text[i]
    if byte >= 48 and byte <= 57 then
      number = number * 10 + int64(byte - 48)
    elseif byte == 44 then
      sum = sum + number
      number = 0
    else
      it.bad = i
      break
    end
    i = i + 1
  end
  it.sum = sum + number
  return it
end

terra main() : int64
  var it = parse("12,7,300x1")
  if it.bad >= 0 then
    [put("bad byte at ")]
    terralib.putbyte(uint8(48 + it.bad))
    [put("\n")]
  end
  return it.sum
end
