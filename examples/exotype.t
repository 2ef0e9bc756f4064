-- A vector over any type, whose methods are made when they are asked for.
-- terrac run main: dot, result 100
local function Vec(T)
  local struct V { n : int; p : &T }
  V.metamethods.__getmethod = function(self, name)
    if name == "get" then
      return terra(v : &V, i : int) : T return v.p[i] end
    elseif name == "set" then
      return terra(v : &V, i : int, x : T) : {} v.p[i] = x end
    end
  end
  return V
end
local VI = Vec(int)
local N = 4
terra dot(a : &VI, b : &VI) : int
  var s = 0
  escape
    for i = 0, N - 1 do emit quote s = s + a:get(i) * b:get(i) end end
  end
  return s
end
local function puts(s)
  local l = terralib.newlist()
  for i = 1, #s do l:insert(`terralib.putbyte([s:byte(i)])) end
  return l
end
terra main() : int
  var a : VI, b : VI
  a.n = 4 a.p = [&int](terralib.alloc(16))
  b.n = 4 b.p = [&int](terralib.alloc(16))
  for i = 0, 4 do a:set(i, i + 1) b:set(i, 10) end
  [puts("dot\n")]
  return dot(&a, &b)
end
