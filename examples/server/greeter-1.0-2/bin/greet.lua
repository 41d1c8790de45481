#!/usr/bin/env lua
-- greet [NAME [LANGUAGE [FILE]]]: FILE has more greetings.
local greeter = require("greeter")
local name, language, path = ...

if path then
   local file = assert(io.open(path))
   greeter.read(file:read("*a"))
   file:close()
end
print(greeter.greet(name or require("greeter.user"), language))
