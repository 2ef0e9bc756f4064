-- A ring of a fixed size: what is put into it comes out in order, and nothing is put where it is full.
-- terrac run main: result 12451
local function Ring(T, size)
  local struct R { items : T[size]; first : int; count : int }
  terra R:init() : {} self.first, self.count = 0, 0 end
  terra R:put(x : T) : bool
    if self.count == size then return false end
    self.items[(self.first + self.count) % size] = x
    self.count = self.count + 1
    return true
  end
  terra R:take() : T
    var x = self.items[self.first]
    self.first = (self.first + 1) % size
    self.count = self.count - 1
    return x
  end
  return R
end

local Four = Ring(int, 4)

terra main() : int
  var ring : Four
  ring:init()
  var full = 0
  for i = 1, 4 do ring:put(i) end
  var taken = ring:take() * 10 + ring:take()
  for i = 4, 8 do
    if not ring:put(i) then full = full + 1 end
  end
  ring:take()
  return (taken * 10 + ring:take()) * 100 + ring:take() * 10 + full
end
