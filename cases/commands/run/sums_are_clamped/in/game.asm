OUT SPU_SelectedChannel, 0
OUT SPU_ChannelAssignedSound, 0
OUT SPU_Command, 48
OUT SPU_SelectedChannel, 1
OUT SPU_ChannelAssignedSound, 1
OUT SPU_Command, 48
HLT
