rockspec_format = "3.0"
package = "Hello"
version = "1.0-1"
source = { url = "git://example.org/hello" }
description = {
   summary = "Greets in several languages",
   license = "MIT",
}
dependencies = { "lua >= 5.1, < 5.5" }
build = {
   type = "builtin",
   modules = {
      hello = "src/hello.lua",
      ["hello.languages"] = "src/hello/languages.lua",
      ["hello.util"] = "src/hello/util.lua",
   },
}
