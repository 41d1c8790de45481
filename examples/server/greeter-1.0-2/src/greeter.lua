-- Greetings in several languages.
local strkit = require("strkit")

local greeter = { greetings = { en = "Hello", de = "Guten Tag", fr = "Bonjour" } }

-- Reads more greetings, one a line as `it = Buongiorno`. Other lines are passed over.
function greeter.read(text)
   for _, line in ipairs(strkit.split(text, "\n")) do
      local language, words = line:match("^%s*(%a+)%s*=(.*)$")
      if language then
         greeter.greetings[language] = strkit.trim(words)
      end
   end
end

-- The greeting of somebody in a language, and in English where the language isn't known.
function greeter.greet(name, language)
   local words = greeter.greetings[language] or greeter.greetings.en
   return words .. ", " .. name .. "!"
end

return greeter
