-- An allocator of blocks of one size: what is given back is taken again before the heap grows.
-- terrac run main 1000: result 2
local function Pool(size)
  local struct Block { next : &Block }
  local struct P { free : &Block; made : int64 }
  terra P:init() : {}
    self.free = nil
    self.made = 0
  end
  terra P:take() : &uint8
    if self.free ~= nil then
      var block = self.free
      self.free = block.next
      return [&uint8](block)
    end
    self.made = self.made + 1
    return terralib.alloc(size)
  end
  terra P:give(bytes : &uint8) : {}
    var block = [&Block](bytes)
    block.next = self.free
    self.free = block
  end
  return P
end

local Lines = Pool(64)

terra main(rounds : int) : int64
  var pool : Lines
  pool:init()
  for i = 0, rounds do
    var one = pool:take()
    var other = pool:take()
    one[63] = uint8(i)
    other[63] = one[63] + 1
    pool:give(one)
    pool:give(other)
  end
  return pool.made
end
