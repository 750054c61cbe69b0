OUT GPU_RegionMaxX, 1023
OUT GPU_RegionMaxY, 1023
OUT GPU_DrawingPointX, -500
OUT GPU_DrawingPointY, -700
OUT GPU_Command, 17
IN R0, GPU_RemainingPixels
MOV [0x30000000], R0
HLT
