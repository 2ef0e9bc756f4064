-- CRC-32 by a table. A Terra function computes its entries while the source is staged: Lua code calls it, and makes a text of what it gives.
-- terrac run main: result 3421780262
local terra entry(sum : uint32) : uint32
  for bit = 0, 8 do
    if sum % 2 == 1 then sum = (sum / 2) ^ 0xEDB88320ULL else sum = sum / 2 end
  end
  return sum
end

local function bytes_of(word)
  local bytes = ""
  for i = 1, 4 do
    bytes = bytes .. string.char(word % 256)
    word = (word - word % 256) / 256
  end
  return bytes
end

local entries = {}
for i = 0, 255 do table.insert(entries, bytes_of(entry(i))) end
local text = table.concat(entries)

terra crc(bytes : rawstring, count : int) : uint32
  var entries = [&uint32](text)
  var sum : uint32 = 0xFFFFFFFFULL
  for i = 0, count do
    sum = (sum >> 8) ^ entries[(sum ^ uint8(bytes[i])) and 255]
  end
  return sum ^ 0xFFFFFFFFULL
end

terra main() : uint32 return crc("123456789", 9) end
