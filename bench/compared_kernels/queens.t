-- In how many ways as many queens as a board has rows stand on it, none of which attacks another.
terra kernel(all : uint, columns : uint, left : uint, right : uint) : int
  if columns == all then return 1 end
  var free, found = all and not (columns or left or right), 0
  while free ~= 0 do
    var bit = free and -free
    free = free - bit
    found = found + kernel(all, columns or bit, (left or bit) << 1, (right or bit) >> 1)
  end
  return found
end

terra main() : int64 return kernel(63, 0, 0, 0) end
