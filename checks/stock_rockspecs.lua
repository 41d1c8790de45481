-- Run by checks/stock_luarocks: PROGRAM FOLDER COUNT SEED. Compares what `lint` says of made rockspecs with what the `lint`
-- of LuaRocks says. They have to agree on which are accepted, but for the rules below, which docs/MANUAL.md lists.
local program, folder, count, seed = arg[1], arg[2], tonumber(arg[3]), tonumber(arg[4])
package.path = arg[0]:gsub("[^/]*$", "?.lua;") .. package.path
local cfg = require("luarocks.core.cfg")
assert(cfg.init())
require("luarocks.fs").init()
require("luarocks.path").use_tree(folder .. "/luarocks")
local lint = require("luarocks.cmd.lint")
local type_rockspec = require("luarocks.type.rockspec")
local is_otherwise_read = require("dependency_texts").is_otherwise_read
local made = require("made_rockspecs")
local copied, with_platforms = made.copied, made.with_platforms
math.randomseed(seed)

-- ---- what stands in a rockspec once the tables for platforms are merged

local function merged(lower, upper)
   if type(lower) ~= "table" or type(upper) ~= "table" then return upper end
   for key, value in pairs(upper) do lower[key] = merged(lower[key], copied(value)) end
   return lower
end

local function for_platforms(spec)
   spec = copied(spec)
   for _, name in ipairs(with_platforms) do
      local field = spec[name]
      local platforms = type(field) == "table" and field.platforms
      if platforms ~= nil and platforms ~= false then field.platforms = nil end
      if type(platforms) == "table" then
         if platforms.unix ~= nil then merged(field, platforms.unix) end
         if platforms.linux ~= nil then merged(field, platforms.linux) end
      end
   end
   return spec
end

local function at(spec, path)
   for part in path:gmatch("[^.]+") do
      if type(spec) ~= "table" then return nil end
      spec = spec[part]
   end
   return spec
end

-- The table there, or one without entries.
local function table_at(spec, path)
   local found = at(spec, path)
   return type(found) == "table" and found or {}
end

local function is_list(value)
   if type(value) ~= "table" then return false end
   local entries = 0
   for _ in pairs(value) do entries = entries + 1 end
   for place = 1, entries do
      if value[place] == nil then return false end
   end
   return true
end

-- ---- where a build's files stand

local function is_path(text)
   if type(text) ~= "string" or #text > 1024 or not utf8.len(text) or text:find("[%z\1-\31\127\\]") then return false end
   for part in (text .. "/"):gmatch("([^/]*)/") do
      if part == "" or part == "." or part == ".." or #part > 150 then return false end
   end
   return true
end

local function source(text) return (text:gsub("^%./", "")) end

local function last(path) return path:match("[^/]*$") end

local function is_module(name) return type(name) == "string" and ("." .. name):gsub("%.[%w_-]+", "") == "" end

local function place_of(list, key, file)
   if type(key) ~= "string" then return last(source(file)) end
   if list == "bin" or list == "conf" then return is_path(key) and key end
   if not is_module(key) then return nil end
   local parts = key:gsub("%.", "/")
   if list == "modules" and ("/" .. source(file)):find("/init%.lua$") and not key:find("%.init$") then
      return parts .. "/init.lua"
   end
   if list == "modules" or file:find("%.lua$") then return parts .. ".lua" end
   return parts:gsub("[^/]*$", "") .. last(source(file))
end

-- The place of an entry, if it has one: its sort and its path.
local function target(list, key, file)
   if type(file) ~= "string" or not is_path(source(file)) then return nil end
   local place = place_of(list, key, file)
   if not place or not is_path((list == "conf" and "conf/" or "") .. place) then return nil end
   return list == "modules" and "lua" or list, place
end

local function each_entry(spec, visit)
   if at(spec, "build.type") ~= "none" then
      for key, file in pairs(table_at(spec, "build.modules")) do visit("modules", key, file) end
   end
   for _, list in ipairs({ "lua", "lib", "bin", "conf" }) do
      for key, file in pairs(table_at(spec, "build.install." .. list)) do visit(list, key, file) end
   end
end

-- Whether one of the paths is equal to another or stands below it.
local function is_twofold(all)
   local taken = {}
   for _, path in ipairs(all) do
      if taken[path] then return true end
      taken[path] = true
   end
   for _, path in ipairs(all) do
      for stop in path:gmatch("()/") do
         if taken[path:sub(1, stop - 1)] then return true end
      end
   end
   return false
end

local kept = { lua = true, lib = true, bin = true, conf = true, rock_manifest = true }

-- ---- the rules by which the two differ, as docs/MANUAL.md lists them. Each tells it of a case that has the globals `spec`,
-- these with the tables for platforms merged as `merged`, and a `sort` of Lua text.

local function is_name(name)
   return name:match("^[a-z0-9][a-z0-9._-]*$") and #name <= 60 and name ~= "manifest"
end

local function is_version(version)
   return version:match("^%w[%w.]*%-%d+$") and #version <= 40 and not version:match(("%d"):rep(19))
end

local function is_text_that(value, is) return type(value) == "string" and is(value) end

local function type_of(case)
   local told = at(case.merged, "build.type")
   return told == nil and "builtin" or told
end

local function some(found, is)
   for key, value in pairs(found) do
      if is(key, value) then return true end
   end
   return false
end

local function is_some_entry(case, is)
   local found = false
   each_entry(case.merged, function(list, key, file) found = found or is(list, key, file) end)
   return found
end

local function is_folder(case, text)
   local first = is_text_that(text, function(path) return is_path(source(path)) end) and source(text):match("^[^/]*")
   return first and not kept[first] and first ~= case.name .. ".rockspec"
end

local function has_twofold(case)
   local places, folders = {}, {}
   each_entry(case.merged, function(list, key, file)
      local sort, path = target(list, key, file)
      if sort then
         places[sort] = places[sort] or {}
         table.insert(places[sort], path)
      end
   end)
   for _, text in pairs(table_at(case.merged, "build.copy_directories")) do
      if type(text) == "string" then folders[#folders + 1] = source(text) end
   end
   return is_twofold(folders) or some(places, function(_, paths) return is_twofold(paths) end)
end

local function is_supported(list)
   local has, all_deny = {}, true
   for _, text in pairs(list) do
      has[text] = true
      all_deny = all_deny and type(text) == "string" and text:sub(1, 1) == "!"
   end
   return not has["!unix"] and not has["!linux"] and (has.unix or has.linux or all_deny)
end

local lists = {
   "dependencies", "build_dependencies", "test_dependencies", "supported_platforms", "description.labels", "build.copy_directories",
}

-- Refused here, whatever LuaRocks says.
local stricter = {
   ["Lua that isn't served"] = function(case) return case.sort == "other Lua" end,
   ["a first line with #"] = function(case) return case.sort == "first line" end,
   ["more than 262,144 bytes"] = function(case) return #case.text > 262144 end,
   ["a name"] = function(case)
      return is_text_that(case.spec.package, function(name) return not is_name(name:lower()) end)
   end,
   ["a version"] = function(case)
      return is_text_that(case.spec.version, function(version) return not is_version(version) end)
   end,
   ["a dependency"] = function(case)
      for at_list = 1, 3 do
         local is_some = some(table_at(case.merged, lists[at_list]), function(_, text)
            return is_text_that(text, is_otherwise_read)
         end)
         if is_some then return true end
      end
   end,
   ["a list with other keys"] = function(case)
      return some(lists, function(_, path) return at(case.merged, path) ~= nil and not is_list(at(case.merged, path)) end)
   end,
   ["an entry of install that is no text"] = function(case)
      return some(table_at(case.merged, "build.install"), function(_, list)
         return type(list) == "table" and some(list, function(key, file)
            return type(file) ~= "string" or type(key) == "boolean"
         end)
      end)
   end,
   ["modules without names"] = function(case)
      local modules = at(case.merged, "build.modules")
      return modules ~= nil and (type(modules) ~= "table" or some(modules, function(key) return type(key) ~= "string" end))
   end,
   ["patches"] = function(case)
      local patches = at(case.merged, "build.patches")
      return patches ~= nil and (type(patches) ~= "table" or next(patches) ~= nil)
   end,
   ["no build type before 3.0"] = function(case)
      return case.spec.rockspec_format ~= "3.0" and at(case.merged, "build.type") == nil
   end,
   ["a build type"] = function(case) return type_of(case) ~= "builtin" and type_of(case) ~= "none" end,
   ["no modules"] = function(case) return type_of(case) == "builtin" and at(case.merged, "build.modules") == nil end,
   ["external dependencies"] = function(case) return next(table_at(case.merged, "external_dependencies")) ~= nil end,
   ["a module to compile"] = function(case)
      return is_some_entry(case, function(list, _, file)
         return list == "modules" and not is_text_that(file, function(text) return text:find("%.lua$") end)
      end)
   end,
   ["a key or path without meaning"] = function(case)
      return is_some_entry(case, function(list, key, file) return not target(list, key, file) end)
         or some(table_at(case.merged, "build.copy_directories"), function(_, text) return not is_folder(case, text) end)
   end,
   ["one place for two files"] = has_twofold,
   ["another platform"] = function(case) return not is_supported(table_at(case.merged, "supported_platforms")) end,
}

local source_fields = {
   url = true, md5 = true, file = true, dir = true, tag = true, branch = true, module = true, cvs_tag = true, cvs_module = true,
   platforms = true,
}

local function has_type(spec) return (select(2, pcall(type_rockspec.check, copied(spec), {}))) == true end

-- Refused by LuaRocks, whatever is said here.
local laxer = {
   ["no license"] = function(case) return not table_at(case.spec, "description").license end,
   ["an unset name"] = function(case) return case.sort == "unset name" end,
   ["a field of source, hooks or deploy that LuaRocks doesn't know"] = function(case)
      return some(table_at(case.merged, "source"), function(key) return not source_fields[key] end)
         or some(table_at(case.merged, "hooks"), function(key, value) return key ~= "post_install" or type(value) ~= "string" end)
         or some(table_at(case.merged, "deploy"), function(key) return key ~= "wrap_bin_scripts" end)
   end,
   ["deploy in format 1.0"] = function(case)
      return case.spec.deploy ~= nil and (case.spec.rockspec_format or "1.0") == "1.0"
   end,
   ["a test type that is no text"] = function(case)
      local told = at(case.merged, "test.type")
      return told ~= nil and type(told) ~= "string"
   end,
   ["tables for platforms before they are merged"] = function(case)
      return not has_type(case.spec) and has_type(case.merged)
   end,
}

-- ---- the comparison

local function shell_quoted(text) return "'" .. text:gsub("'", "'\\''") .. "'" end

local function written(path, text)
   local file = assert(io.open(path, "wb"))
   file:write(text)
   file:close()
end

local function is_word(value, most)
   return type(value) == "string" and #value <= most and not value:find("[%z/]")
end

local function key_of(spec)
   if is_word(spec.package, 100) and is_word(spec.version, 100) then return spec.package:lower(), spec.version end
   return "hello", "1.0-1"
end

-- What the program says: whether it accepts, or else what it did in place of an answer.
local function ours(server, name, version)
   local command = ("%s --tree %s --from %s lint %s %s 2>&1; echo $?"):format(shell_quoted(program),
      shell_quoted(folder .. "/none"), shell_quoted(server), shell_quoted(name), shell_quoted(version))
   local pipe = assert(io.popen(command))
   local out = pipe:read("a")
   pipe:close()
   if out:match("^%S+ %S+ [13]%.[01]\nok\n0\n$") then return true, out end
   if out:match("^refused .*\n1\n$") or out:match("\n2\n$") then return false, out end
   return nil, out
end

local function theirs(path)
   local stderr = io.stderr
   io.stderr = { write = function() end }
   local good, accepts, why = pcall(lint.command, { rockspec = path })
   io.stderr = stderr
   return good and accepts == true, good and why or accepts
end

local function rule_of(rules, case)
   for name, is in pairs(rules) do
      if is(case) then return name end
   end
end

local tally = { same = 0, refused = 0, otherwise = 0, differs = 0 }
local met = {}

local function differs(case, path, what)
   tally.differs = tally.differs + 1
   if tally.differs <= 20 then print(("DIFFERS %s: %s\n%s"):format(path, what, case.text:sub(1, 2000))) end
end

local function judge(case, path, our, their, told)
   local strict, lax = rule_of(stricter, case), rule_of(laxer, case)
   if our == nil then
      differs(case, path, "no answer: " .. told)
   elseif strict and our then
      differs(case, path, "accepted in spite of the rule " .. strict)
   elseif lax and their then
      differs(case, path, "accepted by LuaRocks in spite of the rule " .. lax)
   elseif our == their then
      tally.same = tally.same + 1
      if not our then tally.refused = tally.refused + 1 end
   elseif our and lax or their and strict then
      tally.otherwise = tally.otherwise + 1
      met[our and lax or strict] = true
   else
      differs(case, path, told)
   end
end

for number = 1, count do
   local case = made.rockspec()
   local server = folder .. "/" .. number
   local name, version = key_of(case.spec)
   local path = server .. "/" .. name .. "-" .. version .. ".rockspec"
   case.merged, case.name = for_platforms(case.spec), name .. "-" .. version
   assert(os.execute("mkdir -p " .. shell_quoted(server)))
   written(path, case.text)
   local our, told = ours(server, name, version)
   local their, why = theirs(path)
   judge(case, path, our, their, ("ours %s, LuaRocks %s"):format(told, their and "accepts" or tostring(why)))
end
print(("rockspecs: %d as LuaRocks has it (%d refused by both), %d otherwise as the manual lists, %d differ"):format(
   tally.same, tally.refused, tally.otherwise, tally.differs))
for _, rules in ipairs({ stricter, laxer }) do
   for name in pairs(rules) do
      if not met[name] then print("no case differed by this rule alone or first: " .. name) end
   end
end
os.exit(tally.differs == 0)
