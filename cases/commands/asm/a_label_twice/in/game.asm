a: integer 1
a: integer 1
