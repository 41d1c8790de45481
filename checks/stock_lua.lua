-- Run by checks/stock_lua: PROGRAM FOLDER COUNT SEED.
local program, folder, count, seed = arg[1], arg[2], tonumber(arg[3]), tonumber(arg[4])
math.randomseed(seed)
local random = math.random

local function one_of(list) return list[random(#list)] end

-- ---- texts

local names = { "a", "b", "c", "d", "e", "f", "long_name", "_x", "B2" }
local spaces = { " ", "\n", "\t", " --[[ a comment ]] ", "\r\n", " -- to the line's end\n" }
local quoted = {
   [["text"]], [['it''s']], [["a\tb\\c\"d"]], [['\x41\65\u{48}\z
      end']], "[[\nlong]]", "[==[a ]] b]==]", [["\0\1\127\200"]], [[""]], "'one\\\ntwo'", [["1"]], [["10"]],
}
quoted[2] = [['it\'s']]
local integers = { "0", "1", "7", "42", "0x10", "0XfF", "9223372036854775807", "007" }

local expression

local function list_of(most, made)
   local all = {}
   for at = 1, random(most) do all[at] = made() end
   return table.concat(all, "," .. one_of(spaces))
end

local keys = { "x", "y", "z", "w", "v", "u" }

-- A table whose keys differ, since a key given twice is refused.
local function constructor(depth)
   local fields, used = {}, {}
   for _ = 1, random(0, 5) do
      local kind = random(4)
      local key = one_of(keys)
      if kind == 1 then
         fields[#fields + 1] = expression(depth + 1)
      elseif kind == 2 and not used[key] then
         used[key] = true
         fields[#fields + 1] = key .. " = " .. expression(depth + 1)
      elseif kind == 3 and not used[key] then
         used[key] = true
         fields[#fields + 1] = '["' .. key .. '"] = ' .. expression(depth + 1)
      elseif kind == 4 then
         local number = random(20, 40)
         if not used[number] then
            used[number] = true
            fields[#fields + 1] = "[" .. number .. "] = " .. expression(depth + 1)
         end
      end
   end
   if random(6) == 1 and not used.truth then fields[#fields + 1] = "[true] = " .. expression(depth + 1) end
   local ends = #fields > 0 and one_of({ "", ",", ";" }) or ""
   return "{" .. one_of(spaces) .. table.concat(fields, one_of({ ", ", "; ", ",\n" })) .. ends .. "}"
end

local function simple(depth)
   local kind = random(depth > 3 and 6 or 10)
   if kind == 1 then return one_of({ "nil", "true", "false" }) end
   if kind == 2 then return one_of(integers) end
   if kind <= 4 then return one_of(quoted) end
   if kind <= 6 then return one_of(names) end
   if kind == 7 then return "(" .. expression(depth + 1) .. ")" end
   if kind == 8 then
      local base = "(" .. constructor(depth + 1) .. ")"
      for _ = 1, random(2) do base = base .. one_of({ ".x", '["y"]', "[1]", "[25]", "[true]", ".z.x" }) end
      return base
   end
   return constructor(depth + 1)
end

function expression(depth)
   if random(4) > 1 then return simple(depth) end
   local parts = {}
   for at = 1, random(2, 4) do
      -- Most operands can be joined.
      parts[at] = random(25) == 1 and simple(depth) or (random(2) == 1 and one_of(quoted) or one_of(integers))
   end
   return table.concat(parts, " .. ")
end

local function some_names()
   local all, used = {}, {}
   for _ = 1, random(3) do
      local name = one_of(names)
      if not used[name] then
         used[name] = true
         all[#all + 1] = name
      end
   end
   return table.concat(all, ", ")
end

local function statement()
   local kind = random(6)
   local function values() return list_of(3, function() return expression(0) end) end
   if kind == 1 then return "local " .. some_names() .. " = " .. values() end
   if kind == 2 then return one_of({ ";", "local " .. some_names() }) end
   return some_names() .. " = " .. values()
end

local function chunk()
   local all = {}
   for at = 1, random(0, 8) do all[at] = statement() end
   return table.concat(all, one_of({ "\n", " ", "; " }))
end

-- ---- the printed form

local keywords = {}
for word in ("and break do else elseif end false for function goto if in local nil not or repeat return then true until while"):gmatch("%a+") do
   keywords[word] = true
end

local function quote(text)
   return '"' .. text:gsub('[%c"\\\127]', function(c)
      if c == "\n" then return "\\n" elseif c == '"' or c == "\\" then return "\\" .. c end
      return ("\\%03d"):format(c:byte())
   end) .. '"'
end

local ranks = { number = 1, string = 2, boolean = 3 }

local function sorted_keys(value)
   local all = {}
   for key in pairs(value) do all[#all + 1] = key end
   table.sort(all, function(a, b)
      if type(a) ~= type(b) then return ranks[type(a)] < ranks[type(b)] end
      if type(a) == "boolean" then return not a and b end
      return a < b
   end)
   return all
end

local function printed(value, indent)
   if type(value) == "string" then return quote(value) end
   if type(value) ~= "table" then return tostring(value) end
   if next(value) == nil then return "{}" end
   local lines, position = { "{\n" }, 0
   for _, key in ipairs(sorted_keys(value)) do
      local before
      if key == position + 1 then
         position, before = key, ""
      elseif type(key) == "string" and key:match("^[%a_][%w_]*$") and not keywords[key] then
         before = key .. " = "
      elseif type(key) == "string" then
         before = "[" .. quote(key) .. "] = "
      else
         before = "[" .. tostring(key) .. "] = "
      end
      lines[#lines + 1] = indent .. "   " .. before .. printed(value[key], indent .. "   ") .. ",\n"
   end
   return table.concat(lines) .. indent .. "}"
end

local function stock(text)
   local environment = {}
   local run = load(text, "text", "t", environment)
   if not run or not pcall(run) then return nil end
   local lines = {}
   for _, name in ipairs(sorted_keys(environment)) do
      lines[#lines + 1] = name .. " = " .. printed(environment[name], "") .. "\n"
   end
   return table.concat(lines) .. "ok\n"
end

-- ---- the comparison

os.setlocale("C")
local accepted, refused, own, different = 0, 0, 0, 0
for at = 1, count do
   local text = chunk()
   local file = assert(io.open(folder .. "/server/text", "wb"))
   file:write(text)
   file:close()
   local pipe = assert(io.popen(("'%s' --tree '%s/tree' --from '%s/server' eval text"):format(program, folder, folder), "r"))
   local answer = pipe:read("a")
   pipe:close()
   local wanted = stock(text)
   local is_refusal = answer:sub(1, 8) == "refused "
   if wanted == answer then
      accepted = accepted + 1
   elseif not wanted and is_refusal then
      refused = refused + 1
   elseif is_refusal and answer:match("^refused Lua IndexOf %d+ string\n$") then
      -- Stock Lua finds nil at an index of a text; this project refuses it.
      own = own + 1
   else
      different = different + 1
      print(("text %d differs:\n%s\n-- stock Lua:\n%s-- eval:\n%s"):format(at, text, wanted or "a fault\n", answer))
   end
end
print(("%d texts: %d have the same globals, %d are refused by both, %d index a text, %d differ"):format(count, accepted, refused, own, different))
os.exit(different == 0)
