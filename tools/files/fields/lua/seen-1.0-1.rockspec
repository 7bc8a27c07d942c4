package = "seen"
description = {
   -- license = "GPL-2.0",
   license = "MIT/X11",
   homepage = "https://example.org"
}
