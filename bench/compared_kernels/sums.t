-- The sum of the numbers from 1 to n.
terra kernel(n : int) : int64
  var s : int64 = 0
  for i = 1, n + 1 do s = s + i end
  return s
end

terra main() : int64 return kernel(1000) end
