-- The words of a text in lines of at most `width` bytes. A longer word has a line of its own.
local function wrap(text, width)
   local lines, line = {}, nil
   for word in text:gmatch("%S+") do
      if line and #line + 1 + #word <= width then
         line = line .. " " .. word
      else
         lines[#lines + 1] = line
         line = word
      end
   end
   lines[#lines + 1] = line
   return table.concat(lines, "\n")
end

return wrap
