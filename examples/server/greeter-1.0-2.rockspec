package = "greeter"
version = "1.0-2"
source = {
   url = "git+https://example.org/greeter.git",
   tag = "v1.0",
}
description = {
   summary = "Greets on the command line",
   license = "MIT",
}
dependencies = {
   "lua >= 5.1, < 5.5",
   "strkit ~> 1.2",
}
build = {
   type = "builtin",
   modules = {
      greeter = "src/greeter.lua",
   },
   install = {
      bin = {
         greet = "bin/greet.lua",
      },
      conf = {
         ["greetings.txt"] = "etc/greetings.txt",
      },
   },
   platforms = {
      unix = {
         modules = {
            ["greeter.user"] = "src/user_unix.lua",
         },
      },
      windows = {
         modules = {
            ["greeter.user"] = "src/user_windows.lua",
         },
      },
   },
}
