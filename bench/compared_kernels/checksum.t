-- Adler's checksum of bytes.
local N = 256
local text = global(uint8[N])

terra kernel(p : &uint8, n : int) : uint
  var a : uint, b : uint = 1, 0
  for i = 0, n do
    a = (a + p[i]) % 65521
    b = (b + a) % 65521
  end
  return (b << 16) or a
end

terra main() : int64
  for i = 0, N do text[i] = uint8(i * 11) end
  return kernel(text, N)
end
