-- Makes rockspecs for checks/stock_rockspecs.lua, most of them with a fault or two. The numbers come from the caller's seed.
local random = math.random

local function one_of(list) return list[random(#list)] end

local function chance(of) return random(of) == 1 end

local function copied(value)
   if type(value) ~= "table" then return value end
   local copy = {}
   for key, entry in pairs(value) do copy[key] = copied(entry) end
   return copy
end

-- ---- good rockspecs

local function version_text() return one_of({ "1.0", "2.1.3", "scm", "0.9rc1", "1" }) .. "-" .. random(12) end

local good_texts = { "lua >= 5.1, < 5.5", "LPeg ~> 1.0", "luasocket", "x == 1.0-1", "a.b_c > 1, ~= 1.5", "lua" }

local function some_of(list)
   local some = {}
   for at = 1, random(0, 3) do some[at] = one_of(list) end
   return some
end

local modules = {
   { "hello", "src/hello.lua" }, { "hello.text", "./src/text.lua" }, { "hello.os.linux", "os.lua" },
   { "hey", "hey/init.lua" }, { "hey.init", "init.lua" }, { "h_9-x", "h.lua" },
}
local lists = {
   lua = { { 1, "src/one.lua" }, { "two.x", "two.lua" }, { "three.x", "res/three.txt" } },
   lib = { { 1, "build/four.so" }, { "five.x", "five.so" } },
   bin = { { 1, "bin/six" }, { "seven", "bin/x.lua" }, { "eight/a", "./nine" } },
   conf = { { 1, "etc/ten" }, { "eleven/b", "etc/x" } },
}

local function picked(pairs_of, of)
   local some = {}
   for _, pair in ipairs(pairs_of) do
      if chance(of) then some[pair[1]] = pair[2] end
   end
   return some
end

local function good_install()
   local install = {}
   for _, name in ipairs({ "lua", "lib", "bin", "conf" }) do
      if chance(3) then install[name] = picked(lists[name], 2) end
   end
   return install
end

local function good_build()
   local build = { type = one_of({ "builtin", "builtin", "builtin", "none" }) }
   if build.type == "builtin" then build.modules = picked(modules, 2) end
   if chance(2) then build.install = good_install() end
   if chance(3) then build.copy_directories = one_of({ { "doc" }, { "./doc/html", "test" }, {} }) end
   return build
end

local function good_rockspec()
   local spec = {
      rockspec_format = one_of({ "1.0", "1.1", "3.0", "3.0" }),
      package = one_of({ "hello", "Hello", "h9._-x" }),
      version = version_text(),
      source = { url = one_of({ "git+https://localhost/h.git", "https://localhost/h-1.0.tar.gz", "h.lua" }) },
      description = { license = "MIT", summary = chance(2) and "Hello" or nil },
      build = good_build(),
   }
   if chance(4) then spec.rockspec_format = nil end
   if chance(2) then spec.dependencies = some_of(good_texts) end
   if chance(4) then spec.source.tag = "v1" end
   if chance(6) then spec.supported_platforms = one_of({ { "unix" }, { "!windows" }, { "windows", "linux" } }) end
   if spec.rockspec_format == "3.0" and chance(3) then spec.test_dependencies = some_of(good_texts) end
   if spec.rockspec_format == "3.0" and chance(6) then spec.test = { type = "busted", flags = { "-v" } } end
   return spec
end

-- ---- changes

local values = { 1, true, false, "x", "", {}, { "x" }, { x = "y" }, { 1 }, { [true] = "x" }, { [3] = "x" } }

local paths = {
   "rockspec_format", "package", "version", "source", "source.url", "source.md5", "source.file", "source.dir", "source.tag",
   "source.branch", "source.module", "source.cvs_tag", "source.cvs_module", "description", "description.summary",
   "description.detailed", "description.homepage", "description.license", "description.maintainer", "description.labels",
   "description.issues_url", "supported_platforms", "dependencies", "build_dependencies", "test_dependencies",
   "external_dependencies", "external_dependencies.X", "build", "build.type", "build.modules", "build.install",
   "build.install.lua", "build.install.lib", "build.install.bin", "build.install.conf", "build.copy_directories",
   "build.patches", "hooks", "hooks.post_install", "deploy", "deploy.wrap_bin_scripts", "test", "test.type",
}

-- Puts a value at a path, where there are tables down to it.
local function put(spec, path, value)
   local within, parts = spec, {}
   for part in path:gmatch("[^.]+") do parts[#parts + 1] = part end
   for at = 1, #parts - 1 do
      if within[parts[at]] == nil then within[parts[at]] = {} end
      within = within[parts[at]]
      if type(within) ~= "table" then return end
   end
   within[parts[#parts]] = value
end

local odd_texts = {
   "", "lua >=", "lua !", "lua => 5", "lua 5.1 5.2", "ns/name", "lua/x", "-lua", "_x > 1", "manifest", "lua @5.1", "lua >= .5",
   "lua\n>= 5.1", "lua >= 1234567890123456789", "lua,", "lua >= 5.1,", "a\0b", "lua " .. (" "):rep(1000), "lua ~ 5",
   "lua" .. (" 1"):rep(33), ">= 5.1", "?", "Manifest 1", "lua >= " .. ("1."):rep(20) .. "12",
}
local odd_files = {
   "a.c", "../a.lua", "/a.lua", "a//b.lua", "", "././a.lua", "a\\b.lua", "a.lua/", ".", "a\tb.lua", "\xff.lua",
   ("a"):rep(147) .. ".lua", "x y.lua", ".lua", "init.lua", "sub/init.lua", "a/./b.lua", ("a/"):rep(520) .. "b.lua",
}
local odd_keys = { "a b", "a..b", ".a", "a/b", "", "\xc3\xa9", "a.", "a\\b", "../a", "/a", "./a", ("k"):rep(150), "c:d" }
local odd_folders = {
   "lua", "lib/x", "./bin", "conf", "rock_manifest", "", "/doc", "doc/", "../doc", "doc", "./doc", "doc/html", "Lua", "luax",
   "hello-1.0-1.rockspec", "rock_manifest2",
}
local odd_names = {
   "", "-hello", "_h", ".h", "manifest", "Manifest", "h h", "h\xc3\xa9", ("h"):rep(61), ("h"):rep(60), "9", "h+", "a/b",
}
local odd_versions = {
   "1.0", "1.0-", "1.0-a", "-1", ".1-1", "1.0-1-1", "1_0-1", "1.0-1 ", "", "1234567890123456789-1", "1-1234567890123456789",
   "123456789012345678-1", "12345678.12345678.12345678.12345678.12-1", "12345678.12345678.12345678.12345678.123-1", "A.-1",
}
local platform_lists = {
   { "windows" }, { "!unix" }, { "unix", "!linux" }, { "Unix" }, { "" }, { "!windows", "macosx" }, { "!" }, { "! unix" },
   { "macosx", "linux" }, {}, { "!windows", "unix" }, { "unix " },
}
local with_platforms = {
   "build", "dependencies", "build_dependencies", "test_dependencies", "external_dependencies", "source", "hooks", "test",
}
local overs = {
   build = { { modules = { hello = "over.lua" } }, { type = "none" }, { type = "make" }, { install = { bin = { "over" } } },
      { modules = { x = "x.c" } }, { copy_directories = { "lua" } }, { type = 1 }, { platforms = {} }, { install = "x" } },
   source = { { url = "over" }, { tag = "v2" }, { url = 1 }, { url = "over", x = 1 }, { platforms = {}, url = "over" } },
   hooks = { { post_install = "x" }, { post_install = 1 }, { x = "y" } },
   test = { { type = "command" }, { type = 1 }, { x = 1 } },
   external_dependencies = { { X = { header = "x.h" } }, { X = "x" }, {} },
}
local list_overs = { { "over" }, { [3] = "over" }, { 1 }, { "!" }, { x = "over" }, { "over", "more" }, { platforms = "x" } }

local function a_list(spec)
   local name = one_of({ "dependencies", "dependencies", "build_dependencies", "test_dependencies" })
   if type(spec[name]) ~= "table" then spec[name] = {} end
   return spec[name]
end

local function a_table(spec, path)
   local within = spec
   for part in path:gmatch("[^.]+") do
      if type(within[part]) ~= "table" then within[part] = {} end
      within = within[part]
   end
   return within
end

local changes = {
   function(spec) spec[one_of({ "package", "version", "source", "description", "build", "dependencies" })] = nil end,
   function(spec) put(spec, one_of(paths), copied(one_of(values))) end,
   function(spec) put(spec, one_of(paths), nil) end,
   function(spec) put(spec, one_of(paths), copied(one_of(values))) end,
   function(spec)
      local at = one_of({ "", "description.", "source.", "build.", "build.install.", "hooks.", "deploy.", "test.",
         "external_dependencies.X." })
      put(spec, at .. one_of({ "x", "platforms", "Type" }), copied(one_of(values)))
   end,
   function(spec) spec.rockspec_format = one_of({ "2.0", "3.1", "3", "", "1.0 ", 1, true, {}, "1.0", "1.1", "3.0" }) end,
   function(spec) spec.package = one_of(odd_names) end,
   function(spec) spec.version = one_of(odd_versions) end,
   function(spec) table.insert(a_list(spec), one_of(odd_texts)) end,
   function(spec) table.insert(a_list(spec), one_of(odd_texts)) end,
   function(spec) a_table(spec, "build").type = one_of({ "make", "cmake", "command", "module", "", "Builtin", "none" }) end,
   function(spec) a_table(spec, "build.modules")[one_of({ "hello", "a.b" })] = one_of(odd_files) end,
   function(spec) a_table(spec, "build.modules")[one_of(odd_keys)] = "a.lua" end,
   function(spec) a_table(spec, "build.modules").c = copied(one_of({ { "a.c" }, { sources = { "a.c" } }, "a.so", 1 })) end,
   function(spec) table.insert(a_table(spec, "build.install." .. one_of({ "lua", "lib", "bin", "conf" })), one_of(odd_files)) end,
   function(spec) a_table(spec, "build.install." .. one_of({ "lua", "lib", "bin", "conf" }))[one_of(odd_keys)] = "a" end,
   function(spec)
      local list = a_table(spec, "build.install." .. one_of({ "lua", "lib", "bin", "conf" }))
      list[1], list.two, list["one/x"], list.hello = one_of({ "a/two", "a/one", "a/hello.lua" }), "b.lua", "c", "hello.lua"
   end,
   function(spec) table.insert(a_table(spec, "build.copy_directories"), one_of(odd_folders)) end,
   function(spec) table.insert(a_table(spec, "build.copy_directories"), one_of(odd_folders)) end,
   function(spec) a_table(spec, "build").patches = one_of({ {}, { ["a.patch"] = "x" }, { "x" }, "x" }) end,
   function(spec) spec.external_dependencies = one_of({ {}, { X = { header = "x.h" } }, { X = {} }, { X = { x = 1 } } }) end,
   function(spec)
      local field, over = one_of(with_platforms)
      over = copied(one_of(overs[field] or list_overs))
      a_table(spec, field).platforms = one_of({ { unix = over }, { linux = over }, { windows = over }, { unix = over, linux = {} } })
   end,
   function(spec) put(spec, one_of(with_platforms) .. ".platforms", copied(one_of(values))) end,
   function(spec) put(spec, one_of(with_platforms) .. ".platforms." .. one_of({ "unix", "linux", "windows" }), one_of(values)) end,
   function(spec) spec.supported_platforms = copied(one_of(platform_lists)) end,
   function(spec) put(spec, one_of({ "description.labels", "build_dependencies", "test", "test_dependencies" }), {}) end,
   function(spec) put(spec, one_of({ "description.labels", "deploy", "hooks" }), copied(one_of({ {}, { "x" }, { x = "y" } }))) end,
   function(spec) a_table(spec, "build.install." .. one_of({ "lua", "lib", "bin", "conf" })).x = one_of({ 1, true, {} }) end,
   function(spec) a_table(spec, "build").modules = copied(one_of({ { "a.lua" }, "a.lua", { [true] = "a.lua" }, {} })) end,
   function(spec) put(spec, "description.license", nil) end,
   function(spec) put(spec, "deploy.wrap_bin_scripts", one_of({ true, false, "x" })) end,
   function(spec) put(spec, "hooks.post_install", one_of({ "x", 1 })) end,
}

-- What is put before or behind the text, its sort, and whether it is a fault for either.
local texts = {
   { sort = "fault", "", "\nx = = 1" }, { sort = "fault", "", "\npackage = 'x" }, { sort = "fault", "", "\nx = nil .. 1" },
   { sort = "fine", "-- a comment\n", "\n" }, { sort = "fine", "local x = 'y' .. 1 ", "\nlocal z = { x }" },
   { sort = "fine", "", "\n" .. ("-"):rep(1000) }, { sort = "long", "", "\n" .. ("-"):rep(262144) },
   { sort = "first line", "#!/usr/bin/lua\n", "" }, { sort = "unset name", "local x = y ", "" },
   { sort = "unset name", "local x = { os, y = require } ", "" }, { sort = "other Lua", "", "\nlocal x = 1 + 1" },
   { sort = "other Lua", "", "\nlocal x = ('x'):rep(3)" }, { sort = "other Lua", "if true then ", "end" },
   { sort = "other Lua", "local x = 1.5 ", "" }, { sort = "other Lua", "", "\nbuild.type = 'none'" },
   { sort = "other Lua", "local function f() end ", "" }, { sort = "other Lua", "local x = { y = 1, y = 2 } ", "" },
   { sort = "other Lua", "local x = ('x').y ", "" }, { sort = "other Lua", "local x = #'abc' ", "" },
   { sort = "other Lua", "local x <const> = 1 ", "" }, { sort = "other Lua", "", "\nreturn" },
}

-- ---- printing

local function printed(value)
   if type(value) == "string" then return (("%q"):format(value)) end
   if type(value) ~= "table" then return tostring(value) end
   local entries = {}
   for key, entry in pairs(value) do
      local name = type(key) == "string" and key:match("^[a-z_]+$") and key or "[" .. printed(key) .. "]"
      entries[#entries + 1] = name .. " = " .. printed(entry)
   end
   table.sort(entries)
   return "{ " .. table.concat(entries, ", ") .. " }"
end

local function text_of(spec)
   local lines = {}
   for name, value in pairs(spec) do lines[#lines + 1] = name .. " = " .. printed(value) end
   table.sort(lines)
   return table.concat(lines, "\n") .. "\n"
end

-- A rockspec: its globals, its text, and what sort of Lua text it is.
local function rockspec()
   local spec = good_rockspec()
   for _ = 1, one_of({ 0, 1, 1, 1, 1, 2, 2 }) do one_of(changes)(spec) end
   local frame = chance(8) and one_of(texts) or { sort = "fine", "", "" }
   if frame[2]:find("build.type", 1, true) and type(spec.build) ~= "table" then frame = texts[1] end
   return { spec = spec, sort = frame.sort, text = frame[1] .. text_of(spec) .. frame[2] }
end

return { rockspec = rockspec, copied = copied, with_platforms = with_platforms }
