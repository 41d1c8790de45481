local _MODREV, _SPECREV = "1.2", "-1"

rockspec_format = "3.0"
package = "strkit"
version = _MODREV .. _SPECREV
source = {
   url = "git+https://example.org/strkit.git",
   tag = "v" .. _MODREV,
}
description = {
   summary = "Small helpers for texts",
   detailed = [[
      Trims, splits and wraps texts.
   ]],
   homepage = "https://example.org/strkit",
   issues_url = "https://example.org/strkit/issues",
   license = "MIT",
   labels = { "string", "text" },
}
dependencies = {
   "lua >= 5.1, < 5.5",
}
build = {
   type = "builtin",
   modules = {
      strkit = "src/strkit/init.lua",
      ["strkit.wrap"] = "src/strkit/wrap.lua",
   },
}
