-- A compiler of a small language: Lua reads formulas of one variable, and makes a function of each.
-- terrac run main 5: result 1459
local function compile(text, x)
  local at = 1
  local function char() return text:sub(at, at) end
  local function skip() while char() == " " do at = at + 1 end end
  local function take(c)
    skip()
    if char() == c then at = at + 1 return true end
    return false
  end
  local sum
  local function factor()
    if take("(") then
      local inner = sum()
      assert(take(")"), "a bracket is missing")
      return inner
    end
    if take("x") then return x end
    if take("-") then
      local e = factor()
      return `-e
    end
    skip()
    local number, from = 0, at
    while char() >= "0" and char() <= "9" do
      number = number * 10 + tonumber(char())
      at = at + 1
    end
    assert(at > from, "a number is missing")
    return `int64(number)
  end
  local function product()
    local left = factor()
    while take("*") do
      local l, r = left, factor()
      left = `l * r
    end
    return left
  end
  function sum()
    local left = product()
    while true do
      local l = left
      if take("+") then
        local r = product()
        left = `l + r
      elseif take("-") then
        local r = product()
        left = `l - r
      else
        return left
      end
    end
  end
  local whole = sum()
  skip()
  assert(at == #text + 1, "more than a formula")
  return whole
end

local function formula(text)
  local terra f(x : int64) : int64 return [compile(text, x)] end
  return f
end

local one = formula("(x + 3) * x - 2")
local other = formula("-x * (x - 100) + 7 * -(2)")

terra main(x : int64) : int64 return one(x) * other(x) / 12 end
