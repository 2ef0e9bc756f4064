-- A product of two square matrices.
local N = 12
local a, b, c = global(int[N * N]), global(int[N * N]), global(int[N * N])

terra kernel(p : &int, q : &int, r : &int, n : int) : int
  for i = 0, n do
    for j = 0, n do
      var s = 0
      for k = 0, n do s = s + p[i * n + k] * q[k * n + j] end
      r[i * n + j] = s
    end
  end
  return r[n * n - 1]
end

terra main() : int64
  for i = 0, N * N do
    a[i] = i * 7 % 23
    b[i] = i * 5 % 19
  end
  var s : int64 = kernel(a, b, c, N)
  for i = 0, N * N do s = s * 3 + c[i] end
  return s
end
