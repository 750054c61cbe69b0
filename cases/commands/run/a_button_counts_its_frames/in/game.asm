loop: IN R0, INP_GamepadButtonA
IN R1, TIM_FrameCounter
IADD R1, 0x30000000
MOV [R1], R0
WAIT
JMP loop
