-- A stencil whose weights Lua knows: none is loaded, none that is zero costs anything, and a power of two is a shift.
-- terrac run main: result 2320
local function times(e, weight)
  local shift, rest = 0, weight
  while rest % 2 == 0 do shift, rest = shift + 1, rest / 2 end
  if rest ~= 1 then return `e * weight end
  if shift == 0 then return e end
  return `e << shift
end

local function stencil(weights)
  local reach = (#weights - 1) / 2
  return terra(from : &int, to : &int, count : int) : {}
    for i = reach, count - reach do
      var sum = 0
      escape
        for k, weight in ipairs(weights) do
          local at = k - 1 - reach
          if weight ~= 0 then emit quote sum = sum + [times(`from[i + at], weight)] end end
        end
      end
      to[i] = sum
    end
  end
end

local blur = stencil({ 1, 4, 6, 4, 1 })

terra main() : int
  var from : int[10], to : int[10]
  for i = 0, 10 do
    from[i] = i * i
    to[i] = 0
  end
  blur(&from[0], &to[0], 10)
  var sum = 0
  for i = 0, 10 do sum = sum + to[i] end
  return sum
end
