a: MOV R0, [R1-a]
