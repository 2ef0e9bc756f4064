-- A dot product of a length that Lua knows: a term for each element, and no loop.
-- terrac run main: result 300
local function dot(n)
  return terra(a : &int, b : &int) : int
    var sum = 0
    escape
      for i = 0, n - 1 do emit quote sum = sum + a[i] * b[i] end end
    end
    return sum
  end
end

local dot4 = dot(4)

terra main() : int
  var a : int[4], b : int[4]
  for i = 0, 4 do
    a[i] = i + 1
    b[i] = 10 * (i + 1)
  end
  return dot4(&a[0], &b[0])
end
