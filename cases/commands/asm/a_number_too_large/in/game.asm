integer 1
integer 4294967296
