OUT GPU_RegionMinX, 7
OUT GPU_RegionMaxY, 7
OUT GPU_RegionHotspotX, 7
OUT GPU_SelectedTexture, 1
OUT GPU_Command, 17
IN R0, GPU_RegionMinX
MOV [0x30000000], R0
IN R0, GPU_RegionMaxY
MOV [0x30000001], R0
IN R0, GPU_RegionHotspotX
MOV [0x30000002], R0
IN R0, GPU_SelectedTexture
MOV [0x30000003], R0
IN R0, GPU_RemainingPixels
MOV [0x30000004], R0
HLT
