        MOV R0, 50
        MOV R1, 0
turn:   IMAX R0, R1
        IADD R1, 1
        MOV R2, R1
        ILT R2, 100
        JT R2, turn
        OUT GPU_ClearColor, R0
        HLT
