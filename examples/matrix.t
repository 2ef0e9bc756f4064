-- A product of matrices of a size that Lua knows, without a loop.
-- terrac run main: result 1188
local N = 3

terra multiply(a : &int64, b : &int64, c : &int64) : {}
  escape
    for row = 0, N - 1 do
      for column = 0, N - 1 do
        local at, sum = row * N + column, `int64(0)
        for k = 0, N - 1 do
          local left, right = row * N + k, k * N + column
          sum = `sum + a[left] * b[right]
        end
        emit quote c[at] = sum end
      end
    end
  end
end

terra main() : int64
  var a : int64[N * N], b : int64[N * N], c : int64[N * N]
  for i = 0, N * N do
    a[i] = i + 1
    b[i] = 2 * i
  end
  multiply(&a[0], &b[0], &c[0])
  var sum : int64 = 0
  for i = 0, N * N do sum = sum + c[i] end
  return sum
end
