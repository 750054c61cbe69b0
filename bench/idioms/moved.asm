        MOV R0, 0
        MOV R1, 0
        MOV R3, 1
        MOV R4, 2
fill:   MOV [R1], R0
        MOV [R1+1], R0
        MOV [R1+2], R3
        MOV [R1+3], R4
        IADD R1, 4
        IADD R0, 1
        MOV R2, R0
        ILT R2, 400
        JT R2, fill
        MOV R0, 0
        MOV R1, 0
turn:   CALL step
        IADD R1, 4
        IADD R0, 1
        MOV R2, R0
        ILT R2, 400
        JT R2, turn
        MOV R0, [1596]
        MOV R1, [1597]
        IADD R0, R1
        OUT GPU_ClearColor, R0
        HLT
step:   MOV R3, [R1]
        MOV R4, [R1+2]
        IADD R3, R4
        MOV [R1], R3
        MOV R3, [R1+1]
        MOV R4, [R1+3]
        IADD R3, R4
        MOV [R1+1], R3
        RET
