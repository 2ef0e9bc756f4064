-- A hash of a text (FNV-1a, 64 bits).
-- terrac run main: result 1737166010204877397
terra hash(text : rawstring) : uint64
  var h = 14695981039346656037ULL
  var i = 0
  while text[i] ~= 0 do
    h = (h ^ uint64(uint8(text[i]))) * 1099511628211ULL
    i = i + 1
  end
  return h
end

terra main() : uint64 return hash("terra") end
