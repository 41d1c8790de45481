local languages = require("hello.languages")
local util = require("hello.util")

local hello = {}

-- A greeting for a name, in a language by its two letters; in English where the language isn't known.
function hello.greeting(name, language)
   local word = languages[language] or languages.en
   return util.sentence(word, name)
end

return hello
