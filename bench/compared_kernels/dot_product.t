-- The sum of the products of two lists of numbers.
local N = 256
local a, b = global(int[N]), global(int[N])

terra kernel(p : &int, q : &int, n : int) : int64
  var s : int64 = 0
  for i = 0, n do s = s + int64(p[i]) * int64(q[i]) end
  return s
end

terra main() : int64
  for i = 0, N do
    a[i] = i * 1000003
    b[i] = i * i - 300
  end
  return kernel(a, b, N)
end
