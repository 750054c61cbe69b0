        MOV R0, 0
        MOV R2, 0
fill:   MOV R1, 0
fills:  MOV R3, R1
        XOR R3, R0
        AND R3, 3
        MOV [R2], R3
        IADD R2, 1
        IADD R1, 1
        MOV R3, R1
        ILT R3, 20
        JT R3, fills
        IADD R0, 1
        MOV R3, R0
        ILT R3, 11
        JT R3, fill
        MOV R0, 0
        MOV R2, 0
rows:   MOV R1, 0
cols:   MOV R3, [R2]
        OUT GPU_SelectedRegion, R3
        OUT GPU_DrawingPointX, R1
        OUT GPU_DrawingPointY, R0
        OUT GPU_Command, 0x11
        IADD R2, 1
        IADD R1, 32
        MOV R3, R1
        ILT R3, 640
        JT R3, cols
        IADD R0, 32
        MOV R3, R0
        ILT R3, 352
        JT R3, rows
        HLT
