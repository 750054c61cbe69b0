        MOV R0, 0
        MOV R1, 0
        MOV R2, 1
        MOV R3, 2
        MOV R4, 0
turn:   CALL sum
        IADD R4, 1
        MOV R5, R4
        ILT R5, 100
        JT R5, turn
        IADD R0, R1
        OUT GPU_ClearColor, R0
        HLT
sum:    IADD R0, R2
        IADD R1, R3
        RET
