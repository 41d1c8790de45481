rockspec_format = "3.0"
package = "Hello"
version = "1.0-1"
source = { url = "git://example.org/hello" }
dependencies = { "lua >= 5.1, < 5.5" }
build = {
   modules = { hello = "src/init.lua", ["hello.util"] = "./src/util.lua" },
   install = { bin = { "bin/hello" } },
}
