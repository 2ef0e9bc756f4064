-- The greatest common divisor, by remainders.
terra kernel(a : uint, b : uint) : uint
  while b ~= 0 do a, b = b, a % b end
  return a
end

terra main() : int64
  var s : int64 = 0
  for i = 1, 201 do s = s + kernel(uint(i) * 1071, uint(i) * uint(i) + 462) end
  return s
end
