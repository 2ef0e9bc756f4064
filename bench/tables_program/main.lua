-- What main.rt does, in Lua: the words are the same.
local words = {}
for at = 1, 6 do words[at] = tonumber(arg[at]) end
local keys = {}
for count = 1, words[2] do keys[count] = words[6] == 0 and count or "key" .. (count - 1) end

local function run(sets, reads, walks)
  local t, seen = {}, 0
  for _ = 1, sets do
    for i = 1, #keys do t[keys[i]] = true end
  end
  for _ = 1, reads do
    for i = 1, #keys do if t[keys[i]] then seen = seen + 1 end end
  end
  for _ = 1, walks do
    local key = next(t)
    while key ~= nil do
      seen = seen + 1
      key = next(t, key)
    end
  end
  return seen
end

local seen
for _ = 1, words[1] do seen = run(words[3], words[4], words[5]) end
print(seen)
