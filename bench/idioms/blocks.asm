        MOV CR, 1000
        MOV SR, 7
        MOV DR, 0
        SETS
        MOV CR, 1000
        MOV SR, 0
        MOV DR, 1000
        MOVS
        MOV R0, [1999]
        OUT GPU_ClearColor, R0
        HLT
