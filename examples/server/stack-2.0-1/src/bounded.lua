-- A stack that holds at most so many values.
local Stack = require("stack")

local Bounded = setmetatable({}, { __index = Stack })
Bounded.__index = Bounded

function Bounded.new(limit)
   local stack = setmetatable(Stack.new(), Bounded)
   stack.limit = limit
   return stack
end

-- Puts a value on top, and says whether there was room.
function Bounded:push(value)
   if self.height >= self.limit then
      return false
   end
   Stack.push(self, value)
   return true
end

return Bounded
