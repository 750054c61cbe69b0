this is not read @
