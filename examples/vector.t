-- A vector of any type, made by a Lua function with its methods.
-- terrac run main 10: result 295
local function Vector(T)
  local struct V { data : &T; size : int64; room : int64 }
  terra V:init() : {}
    self.data = nil
    self.size, self.room = 0, 0
  end
  terra V:push(x : T) : {}
    if self.size == self.room then
      self.room = self.room * 2 + 4
      var data = [&T](terralib.alloc(self.room * int64(sizeof(T))))
      for i = 0, self.size do data[i] = self.data[i] end
      self.data = data
    end
    self.data[self.size] = x
    self.size = self.size + 1
  end
  terra V:get(i : int64) : T return self.data[i] end
  return V
end

local Longs, Bytes = Vector(int64), Vector(uint8)

terra main(n : int64) : int64
  var squares : Longs
  var bytes : Bytes
  squares:init()
  bytes:init()
  for i = 0, n do
    squares:push(i * i)
    bytes:push(uint8(i + 251))
  end
  var sum : int64 = 0
  for i = 0, n do
    sum = sum + squares:get(i)
    if bytes:get(i) < 5 then sum = sum + int64(bytes:get(i)) end
  end
  return sum
end
