-- Small letters are made large; how many.
local N = 256
local text = global(uint8[N])

terra kernel(p : &uint8, n : int) : int
  var changed = 0
  for i = 0, n do
    var c = p[i]
    if c >= 97 and c <= 122 then
      p[i] = c - 32
      changed = changed + 1
    end
  end
  return changed
end

terra main() : int64
  for i = 0, N do text[i] = uint8(i * 7) end
  return kernel(text, N)
end
