-- A switch on texts: Lua writes the comparisons out, byte by byte.
-- terrac run main: result 229
local function equals(p, text)
  local all = `true
  for i = 1, #text do
    local at, byte = i - 1, text:byte(i)
    all = `all and p[at] == byte
  end
  local size = #text
  return `all and p[size] == 0
end

local names = { "zero", "one", "two", "three" }

terra number(name : rawstring) : int
  escape
    for i, text in ipairs(names) do
      local value = i - 1
      emit quote if [equals(name, text)] then return value end end
    end
  end
  return -1
end

terra main() : int
  return number("two") * 100 + number("three") * 10 + number("four")
end
