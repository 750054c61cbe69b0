; A tone for half a second. Sound 0 and channel 0 are the selected ones at first.
        OUT SPU_SoundPlayWithLoop, 1    ; the loop is the whole sound at first
        OUT SPU_ChannelAssignedSound, 0
        OUT SPU_Command, 0x30           ; play
        MOV R0, 30
again:  WAIT                            ; 735 samples are mixed at a frame's end
        ISUB R0, 1
        JT R0, again
        OUT SPU_Command, 0x32           ; stop
        HLT
