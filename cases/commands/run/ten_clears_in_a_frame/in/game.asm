IN R0, GPU_ClearColor
MOV [0x30000000], R0
OUT GPU_ClearColor, 1122867
IN R0, GPU_ClearColor
MOV [0x30000001], R0
OUT GPU_Command, 16
OUT GPU_Command, 16
OUT GPU_Command, 16
OUT GPU_Command, 16
OUT GPU_Command, 16
OUT GPU_Command, 16
OUT GPU_Command, 16
OUT GPU_Command, 16
OUT GPU_Command, 16
IN R0, GPU_RemainingPixels
MOV [0x30000002], R0
OUT GPU_ClearColor, 5
OUT GPU_Command, 16
IN R0, GPU_RemainingPixels
MOV [0x30000003], R0
WAIT
OUT GPU_Command, 16
IN R0, GPU_RemainingPixels
MOV [0x30000004], R0
HLT
