        MOV R0, 0
        MOV R1, 20
turn:   OUT GPU_DrawingPointX, R0
        OUT GPU_DrawingPointY, R1
        OUT GPU_Command, 0x11
        IADD R0, 1
        MOV R2, R0
        ILT R2, 100
        JT R2, turn
        HLT
