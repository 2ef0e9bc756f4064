-- A filter of fixed point: each output moves towards its input by a part that Lua turns into a shift or a product.
-- terrac run main: result 63
local ONE = 65536

local function part(numerator, denominator, e)
  local shift, size = 0, denominator
  while size % 2 == 0 do shift, size = shift + 1, size / 2 end
  if size == 1 then return `(e * numerator) >> shift end
  return `e * numerator / denominator
end

terra filter(samples : &int, count : int) : int
  var level : int64 = 0
  for i = 0, count do
    var input = int64(samples[i]) * ONE
    level = level + [part(1, 4, `(input - level))]
  end
  return int(level / ONE)
end

terra main() : int
  var samples : int[16]
  for i = 0, 16 do samples[i] = 64 end
  return filter(&samples[0], 16)
end
