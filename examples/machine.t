-- A state machine from a table: the remainder by 3 of a number that is written with zeros and ones.
-- terrac run main: result 1
local states = {}
for state = 0, 2 do
  for digit = 0, 1 do
    table.insert(states, { from = state, digit = digit, to = (2 * state + digit) % 3 })
  end
end

terra step(state : int, digit : int) : int
  escape
    for _, row in ipairs(states) do
      local from, on, to = row.from, row.digit, row.to
      emit quote if state == from and digit == on then return to end end
    end
  end
  return -1
end

terra remainder(digits : rawstring) : int
  var state, i = 0, 0
  while digits[i] ~= 0 do
    state = step(state, digits[i] - 48)
    i = i + 1
  end
  return state
end

terra main() : int return remainder("1011011") end
