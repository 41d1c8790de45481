-- Stacks of values that aren't nil.
local Stack = {}
Stack.__index = Stack

function Stack.new()
   return setmetatable({ height = 0 }, Stack)
end

-- Puts a value on top.
function Stack:push(value)
   assert(value ~= nil, "a stack holds no nil")
   self.height = self.height + 1
   self[self.height] = value
end

-- Takes the value from the top; nil where the stack is empty.
function Stack:pop()
   local value = self[self.height]
   if value ~= nil then
      self[self.height] = nil
      self.height = self.height - 1
   end
   return value
end

-- The value on top, which stays.
function Stack:top()
   return self[self.height]
end

return Stack
