-- Fibonacci's numbers by two calls.
terra kernel(n : int) : int
  if n < 2 then return n end
  return kernel(n - 1) + kernel(n - 2)
end

terra main() : int64 return kernel(15) end
