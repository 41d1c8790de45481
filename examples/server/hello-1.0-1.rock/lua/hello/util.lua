local util = {}

-- `WORD, NAME!`, or the word alone where there is no name.
function util.sentence(word, name)
   if name == nil or name == "" then
      return word .. "!"
   end
   return word .. ", " .. name .. "!"
end

return util
