OUT SPU_SelectedChannel, 3
OUT SPU_ChannelLoopEnabled, 1
OUT SPU_Command, 48
WAIT
IN R0, SPU_SelectedChannel
MOV [0x30000000], R0
IN R0, SPU_ChannelState
MOV [0x30000001], R0
IN R0, SPU_ChannelAssignedSound
MOV [0x30000002], R0
IN R0, SPU_ChannelLoopEnabled
MOV [0x30000003], R0
HLT
