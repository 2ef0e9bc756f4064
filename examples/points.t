struct Point { x : int; y : int }
terra Point:dot(o : &Point) : int64 return self.x * o.x + self.y * o.y end
terra norm(p : &Point) return p:dot(p) end
terra wrong(p : Point) : int return p.z end
