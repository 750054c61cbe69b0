; a at 0, b at 64, c at 128
        MOV R0, 0
        MOV R2, 0
fill:   MOV R1, 0
fills:  MOV R3, R0
        IADD R3, R1
        MOV [R2], R3
        MOV R3, R0
        ISUB R3, R1
        MOV [R2+64], R3
        IADD R2, 1
        IADD R1, 1
        MOV R3, R1
        ILT R3, 8
        JT R3, fills
        IADD R0, 1
        MOV R3, R0
        ILT R3, 8
        JT R3, fill
        MOV R0, 0
        MOV R6, 128
rows:   MOV R1, 64
cols:   MOV R2, 0
        MOV R3, R0
        MOV R4, R1
terms:  MOV R5, [R3]
        MOV R7, [R4]
        IMUL R5, R7
        IADD R2, R5
        IADD R3, 1
        IADD R4, 8
        MOV R7, R4
        ILT R7, 128
        JT R7, terms
        MOV [R6], R2
        IADD R6, 1
        IADD R1, 1
        MOV R7, R1
        ILT R7, 72
        JT R7, cols
        IADD R0, 8
        MOV R7, R0
        ILT R7, 64
        JT R7, rows
        MOV R0, 135
show:   MOV R1, [R0]
        OUT GPU_ClearColor, R1
        IADD R0, 7
        MOV R1, R0
        ILT R1, 185
        JT R1, show
        HLT
