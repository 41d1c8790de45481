-- Texts of dependencies that this project and LuaRocks read otherwise.

-- What docs/MANUAL.md lists as refused that LuaRocks takes.
local function is_otherwise_read(text)
   if text:find("/") then return "a namespace or a slash" end
   if text:find("@") then return "an @" end
   if text:find("[\n\r\v\f]") then return "white space other than blanks and tabs" end
   local name = text:match("^[ \t]*([%w%._%-]*)")
   if name:lower() == "manifest" or name:match("^[%._%-]") then return "a name" end
   if #name > 60 then return "a name" end
   if #text > 1000 then return "a long text" end
   local constraints = 0
   for version in text:sub(#text:match("^[ \t]*[%w%._%-]*") + 1):gmatch("[%w%._%-]+") do
      constraints = constraints + 1
      if version:match("^[%._%-]") or #version > 40 then return "a version" end
      if version:match(("%d"):rep(19)) then return "a number" end
   end
   if constraints > 32 then return "constraints" end
end

return { is_otherwise_read = is_otherwise_read }
