; A red square that gamepad 0 moves. Region 0 of texture 0 is the whole texture, 32 by 32 points.
        MOV R0, 304                     ; the square's left side
        MOV R1, 164                     ; its upper side
        OUT GPU_RegionMaxX, 31          ; the region's other values are 0 at first
        OUT GPU_RegionMaxY, 31

frame:  OUT GPU_ClearColor, 0xFF000000
        OUT GPU_Command, 0x10           ; clear
        IN R2, INP_GamepadLeft          ; above 0 while the control is down
        IGT R2, 0
        JF R2, right
        ISUB R0, 2
right:  IN R2, INP_GamepadRight
        IGT R2, 0
        JF R2, up
        IADD R0, 2
up:     IN R2, INP_GamepadUp
        IGT R2, 0
        JF R2, down
        ISUB R1, 2
down:   IN R2, INP_GamepadDown
        IGT R2, 0
        JF R2, show
        IADD R1, 2
show:   OUT GPU_DrawingPointX, R0
        OUT GPU_DrawingPointY, R1
        OUT GPU_Command, 0x11           ; draw
        WAIT
        JMP frame
