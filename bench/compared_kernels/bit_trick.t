-- How many bits of a word are set.
terra kernel(x : uint64) : int
  x = x - ((x >> 1) and 0x5555555555555555ULL)
  x = (x and 0x3333333333333333ULL) + ((x >> 2) and 0x3333333333333333ULL)
  x = (x + (x >> 4)) and 0x0f0f0f0f0f0f0f0fULL
  return int((x * 0x0101010101010101ULL) >> 56)
end

terra main() : int64
  var s : int64 = 0
  var x = 0xDEADBEEF12345678ULL
  for i = 0, 100 do
    s = s * 3 + kernel(x)
    x = x * 6364136223846793005ULL + 1442695040888963407ULL
  end
  return s
end
