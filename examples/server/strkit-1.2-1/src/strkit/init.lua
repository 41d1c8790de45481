-- Small helpers for texts.
local strkit = {}

-- The text without the white space around it.
function strkit.trim(text)
   return text:match("^%s*(.-)%s*$")
end

-- The pieces between a plain separator, also empty ones.
function strkit.split(text, separator)
   local pieces, from = {}, 1
   while true do
      local first, last = text:find(separator, from, true)
      if not first then
         pieces[#pieces + 1] = text:sub(from)
         return pieces
      end
      pieces[#pieces + 1] = text:sub(from, first - 1)
      from = last + 1
   end
end

-- Whether the text begins with another.
function strkit.starts_with(text, start)
   return text:sub(1, #start) == start
end

strkit.wrap = require("strkit.wrap")

return strkit
