-- Powers whose exponent Lua knows: Lua writes the products out, and no loop is left.
-- terrac run cube 5: result 125
local function power(n)
  local terra f(x : int64) : int64
    var product = x
    escape
      for i = 2, n do emit quote product = product * x end end
    end
    return product
  end
  return f
end

square, cube = power(2), power(3)
