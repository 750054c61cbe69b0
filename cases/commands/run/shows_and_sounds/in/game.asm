OUT GPU_ClearColor, 3351057
OUT GPU_Command, 16
OUT SPU_ChannelAssignedSound, 0
OUT SPU_Command, 48
WAIT
HLT
