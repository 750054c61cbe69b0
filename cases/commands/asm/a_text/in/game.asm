string "a\x41\n"
