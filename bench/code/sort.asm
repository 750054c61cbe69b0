        MOV R0, 0
fill:   MOV R1, R0
        IMUL R1, 37
        AND R1, 63
        MOV [R0], R1
        IADD R0, 1
        MOV R1, R0
        ILT R1, 64
        JT R1, fill
        MOV R0, 64
outer:  MOV R1, 0
inner:  MOV R2, [R1]
        MOV R3, [R1+1]
        MOV R4, R2
        IGT R4, R3
        JF R4, next
        MOV [R1], R3
        MOV [R1+1], R2
next:   IADD R1, 1
        MOV R4, R1
        ILT R4, 63
        JT R4, inner
        ISUB R0, 1
        JT R0, outer
        MOV R0, 0
show:   MOV R1, [R0]
        OUT GPU_ClearColor, R1
        IADD R0, 1
        MOV R1, R0
        ILT R1, 64
        JT R1, show
        HLT
