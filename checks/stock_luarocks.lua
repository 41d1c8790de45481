-- Run by checks/stock_luarocks: PROGRAM LINES FOLDER COUNT SEED.
local program, lines, folder, count, seed = arg[1], arg[2], arg[3], tonumber(arg[4]), tonumber(arg[5])
local cfg = require("luarocks.core.cfg")
cfg.arch = cfg.arch or "linux-x86_64"
local vers = require("luarocks.core.vers")
local queries = require("luarocks.queries")
package.path = arg[0]:gsub("[^/]*$", "?.lua;") .. package.path
local is_otherwise_read = require("dependency_texts").is_otherwise_read
math.randomseed(seed)
local random = math.random

local function one_of(list) return list[random(#list)] end

local function shell_quoted(text) return "'" .. text:gsub("'", "'\\''") .. "'" end

local function output_of(command)
   local pipe = assert(io.popen(command))
   local out = pipe:read("a")
   pipe:close()
   return out
end

-- ---- versions

local listed_words = { "alpha", "beta", "pre", "rc", "cvs", "scm", "dev" }
local other_words = { "a", "b", "z", "final", "p", "RC", "Alpha", "w" }
local separators = { ".", ".", ".", ".", "-", "_", "..", ".-", "" }
local numbers = { "0", "0", "1", "1", "2", "3", "9", "10", "11", "00", "01", "20", "99" }
local odd_numbers = { "100", "1000", "123456789", "9007199254740993", "999999999999999999" }
local is_listed = {}
for _, word in ipairs(listed_words) do is_listed[word] = true end

local function component()
   local kind = random(10)
   if kind <= 7 then return one_of(random(20) == 1 and odd_numbers or numbers) end
   if kind <= 9 then return one_of(listed_words) end
   return one_of(other_words)
end

local function made_of(parts, revision)
   local text = parts[1]
   for at = 2, #parts do
      local separator = one_of(separators)
      -- Two numbers stand apart, and so do two words.
      if separator == "" and text:match("%d$") and parts[at]:match("^%d") then separator = "." end
      if separator == "" and text:match("%a$") and parts[at]:match("^%a") then separator = "." end
      text = text .. separator .. parts[at]
   end
   return text .. (revision and "-" .. revision or "")
end

local function parts_of_version()
   local parts = {}
   for at = 1, random(4) do parts[at] = component() end
   return parts
end

local function changed(parts)
   local other = { table.unpack(parts) }
   local kind = random(6)
   if kind == 1 then other[#other + 1] = "0" end
   if kind == 2 then other[#other + 1] = component() end
   if kind == 3 and #other > 1 then other[#other] = nil end
   if kind >= 4 then other[random(#other)] = component() end
   return other
end

local function revision() return one_of({ false, "1", "1", "2", "9", "10", "01" }) end

local function pair()
   while true do
      local parts = parts_of_version()
      local left = made_of(parts, revision())
      local right = made_of(random(4) == 1 and parts_of_version() or changed(parts), revision())
      if #left <= 40 and #right <= 40 then return left, right end
   end
end

-- ---- where versions are ordered otherwise, as docs/MANUAL.md lists it

local function body_of(version) return version:match("^(.+)%-%d+$") or version end

-- In words and numbers, in their order.
local function components_of(version)
   local all = {}
   for run in body_of(version):gsub("(%a)(%d)", "%1.%2"):gsub("(%d)(%a)", "%1.%2"):gmatch("%w+") do all[#all + 1] = run end
   return all
end

local function is_word(text) return text:match("^%a") ~= nil end

-- A number that LuaRocks can't hold exactly.
local function is_large(digits) return #digits:gsub("^0+", "") > 15 end

local function is_otherwise_ordered(version)
   local all = components_of(version)
   local revision = version:match("%-(%d+)$")
   if revision and is_large(revision) then return "large number" end
   for at, part in ipairs(all) do
      local next_part = all[at + 1]
      if not is_word(part) and is_large(part) then return "large number" end
      if is_word(part) and next_part and is_word(next_part) then return "two words in a row" end
      if is_word(part) and next_part and not is_word(next_part) then
         if tonumber(next_part) >= (is_listed[part] and 100000000 or 100) then return "large number behind a word" end
      end
   end
end

local words_above_numbers = { cvs = true, scm = true, dev = true }

-- Of two versions one has a number that LuaRocks may put above the other's word.
local function has_number_above_word(one, other)
   local number, word = false, false
   for _, part in ipairs(components_of(one)) do
      number = number or (not is_word(part) and tonumber(part) >= 100000000)
   end
   for _, part in ipairs(components_of(other)) do word = word or words_above_numbers[part] end
   return number and word
end

local function are_otherwise_ordered(left, right)
   local why = is_otherwise_ordered(left) or is_otherwise_ordered(right)
   if why then return why end
   if has_number_above_word(left, right) or has_number_above_word(right, left) then return "a number above a word" end
end

-- Behind a word stands a number, which may have to be 0.
local function has_number_behind_word(version, zero)
   local all = components_of(version)
   for at = 1, #all - 1 do
      if is_word(all[at]) and not is_word(all[at + 1]) and (not zero or tonumber(all[at + 1]) == 0) then return true end
   end
   return false
end

local function is_otherwise_met(version, constraint)
   local given = constraint.version.string
   local why = are_otherwise_ordered(version, given)
   if why then return why end
   local op = constraint.op
   if (op == "==" or op == "~=") and (has_number_behind_word(version, true) or has_number_behind_word(given, true)) then
      return "0 behind a word"
   end
   local all = components_of(given)
   if op == "~>" and is_word(all[#all]) and has_number_behind_word(version) then return "~> and a word" end
end

-- ---- the comparison of orders

local function new_tally() return { same = 0, otherwise = 0, differs = 0, faults = 0 } end
local tally = new_tally()

local function differs(what, ours, theirs)
   tally.differs = tally.differs + 1
   if tally.differs <= 20 then print(("DIFFERS %s: ours %s, LuaRocks %s"):format(what, ours, theirs)) end
end

local function judged(same, why, what, ours, theirs)
   if same then
      tally.same = tally.same + 1
   elseif why then
      tally.otherwise = tally.otherwise + 1
   else
      differs(what, ours, theirs)
   end
end

local function compare_orders()
   for _ = 1, count do
      local left, right = pair()
      local l, r = vers.parse_version(left), vers.parse_version(right)
      local theirs = l < r and "<" or (r < l and ">" or "=")
      local command = ("%s --tree %s compare %s %s"):format(
         shell_quoted(program), shell_quoted(folder .. "/none"), shell_quoted(left), shell_quoted(right))
      local ours = output_of(command):match("^%S+ ([<=>]) %S+\nok\n$") or "nothing"
      judged(ours == theirs, are_otherwise_ordered(left, right),
         "compare " .. left .. " " .. right, ours, theirs)
   end
end

-- ---- the comparison of dependencies

local names = { "lua", "luasocket", "Lua-CJSON", "a.b_c", "x1" }
local odd_names = { "manifest", "-lua", "_x", "ns/name", "lua/x", "" }
local operators = { "", "=", "==", "~=", "!=", "<", ">", "<=", ">=", "~>", "~>", ">=", "<" }
local odd_operators = { "!", "=>", "<>", "@==", "===" }
local blanks = { "", " ", "  ", "\t" }
local between = { ",", ", ", " ", ",,", " , ", "" }

-- Mostly one of the list, and now and then one of the other.
local function mostly(list, odd) return one_of(random(20) == 1 and odd or list) end

local function constraint_text()
   local version = random(25) == 1 and one_of({ ".5", "-1", "_", "" }) or made_of(parts_of_version(), revision())
   return mostly(operators, odd_operators) .. mostly(blanks, { "\n" }) .. version
end

local function dependency_text()
   local text = one_of(blanks) .. mostly(names, odd_names) .. one_of(blanks)
   if random(20) == 1 then text = text .. "," end
   for at = 1, random(0, 3) do
      if at > 1 then text = text .. mostly(between, { "\n,", ";" }) end
      text = text .. constraint_text()
   end
   return text .. mostly({ "", " ", ",", ", ," }, { "/", "\n" })
end

local function printed(query)
   local all = {}
   for at, constraint in ipairs(query.constraints) do
      all[at] = " " .. constraint.op .. " " .. constraint.version.string
   end
   return query.name:lower() .. table.concat(all, ",")
end

local function silently(call, ...)
   local stderr = io.stderr
   io.stderr = { write = function() end }
   local good, first, second = pcall(call, ...)
   io.stderr = stderr
   if not good then return nil, first end
   return first, second
end

local function compare_dependencies()
   local cases, asked = {}, {}
   for at = 1, count do
      local version, text = made_of({ one_of(numbers), one_of(numbers) }, revision()), dependency_text()
      if random(2) == 1 then version = pair() end
      cases[at] = { version = version, text = text }
      -- A line can't hold a line feed: ours are read with a space in its place, and the case is a listed one.
      asked[at] = version .. "\t" .. text:gsub("\n", "\v")
   end
   local path = folder .. "/asked"
   local file = assert(io.open(path, "w"))
   file:write(table.concat(asked, "\n"), "\n")
   file:close()
   local at = 0
   for ours in output_of(shell_quoted(lines) .. " < " .. shell_quoted(path)):gmatch("([^\n]*)\n") do
      at = at + 1
      local case = cases[at]
      local query = silently(queries.from_dep_string, case.text)
      local what = ("%q for %s"):format(case.text, case.version)
      local met, text = ours:match("^(u?n?met) (.*)$")
      if not met or not query then
         if not met and not query then tally.faults = tally.faults + 1 end
         judged(not met and not query, query and is_otherwise_read(case.text), what, ours, query and printed(query) or "a fault")
      elseif text ~= printed(query) then
         judged(false, is_otherwise_read(case.text), what, ours, printed(query))
      else
         local why
         for _, constraint in ipairs(query.constraints) do why = why or is_otherwise_met(case.version, constraint) end
         local theirs = vers.match_constraints(vers.parse_version(case.version), query.constraints) and "met" or "unmet"
         judged(met == theirs, why, what, met, theirs)
      end
   end
   if at ~= count then differs("the number of lines", at, count) end
end

local function report(what)
   print(("%s: %d as LuaRocks has it (%d refused by both), %d otherwise as the manual lists, %d differ"):format(
      what, tally.same, tally.faults, tally.otherwise, tally.differs))
end

compare_orders()
report("orders")
local bad = tally.differs
tally = new_tally()
compare_dependencies()
report("dependencies")
os.exit(bad + tally.differs == 0)
