        MOV R1, 7
        MOV [8], R1
        MOV R0, 0
turn:   MOV CR, 9
        MOV SR, 0
        MOV DR, 9
        MOVS
        IADD R0, 1
        MOV R1, R0
        ILT R1, 100
        JT R1, turn
        MOV R0, [17]
        OUT GPU_ClearColor, R0
        HLT
