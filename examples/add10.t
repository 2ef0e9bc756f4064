local function add10(e) return quote var x = 10 in x + e end end
terra f() : int
  var x = 1
  return [add10(x)]
end
