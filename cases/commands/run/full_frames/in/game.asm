start: IN R0, TIM_CycleCounter
MOV [0x30000000], R0
JMP start
