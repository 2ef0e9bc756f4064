-- Bytes are copied one by one, by pointers that move.
local N = 256
local a, b = global(uint8[N]), global(uint8[N])

terra kernel(to : &uint8, from : &uint8, n : int64) : {}
  while n > 0 do
    @to = @from
    to = to + 1
    from = from + 1
    n = n - 1
  end
end

terra main() : int64
  for i = 0, N do a[i] = uint8(i * 13) end
  kernel(b, a, N)
  var s : int64 = 0
  for i = 0, N do s = s * 3 + b[i] end
  return s
end
