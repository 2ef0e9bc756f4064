terra add(a : int64, b : int64) : int64 return a + b end
