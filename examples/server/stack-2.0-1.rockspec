rockspec_format = "1.1"
package = "Stack"
version = "2.0-1"
source = {
   url = "https://example.org/stack-2.0.tar.gz",
   dir = "stack-2.0",
}
description = {
   summary = "Stacks with an optional limit",
   homepage = "https://example.org/stack",
   license = "MIT",
   maintainer = "Nobody <nobody@example.org>",
}
supported_platforms = { "!windows" }
dependencies = {
   "lua >= 5.1",
}
build = {
   type = "builtin",
   modules = {
      stack = "src/stack.lua",
      ["stack.bounded"] = "src/bounded.lua",
   },
   copy_directories = { "doc" },
}
