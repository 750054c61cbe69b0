        MOV R5, 1
        MOV R0, 0
        MOV R1, 2
outer:  MOV R2, [R1]
        JT R2, next
        IADD R0, 1
        MOV R2, R1
        IADD R2, R1
        JMP test
strike: MOV [R2], R5
        IADD R2, R1
test:   MOV R3, R2
        ILT R3, 1000
        JT R3, strike
next:   IADD R1, 1
        MOV R3, R1
        ILT R3, 1000
        JT R3, outer
        OUT GPU_ClearColor, R0
        HLT
