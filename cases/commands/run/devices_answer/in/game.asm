until: IN R0, TIM_FrameCounter
IEQ R0, 59
JT R0, go
WAIT
JMP until
go:
IN R0, TIM_CurrentDate
MOV [0x30000000], R0
IN R0, TIM_CurrentTime
MOV [0x30000001], R0
IN R0, TIM_FrameCounter
MOV [0x30000002], R0
IN R0, TIM_CycleCounter
MOV [0x30000003], R0
IN R0, RNG_CurrentValue
MOV [0x30000004], R0
IN R0, RNG_CurrentValue
MOV [0x30000005], R0
IN R0, INP_SelectedGamepad
MOV [0x30000006], R0
IN R0, INP_GamepadConnected
MOV [0x30000007], R0
IN R0, INP_GamepadLeft
MOV [0x30000008], R0
IN R0, CAR_Connected
MOV [0x30000009], R0
IN R0, CAR_ProgramROMSize
MOV [0x3000000A], R0
IN R0, CAR_NumberOfTextures
MOV [0x3000000B], R0
IN R0, CAR_NumberOfSounds
MOV [0x3000000C], R0
IN R0, MEM_Connected
MOV [0x3000000D], R0
OUT RNG_CurrentValue, 0
OUT INP_SelectedGamepad, 1
OUT INP_SelectedGamepad, 4
WAIT
IN R0, TIM_CurrentTime
MOV [0x3000000E], R0
IN R0, RNG_CurrentValue
MOV [0x3000000F], R0
IN R0, INP_SelectedGamepad
MOV [0x30000010], R0
IN R0, INP_GamepadConnected
MOV [0x30000011], R0
IN R0, INP_GamepadButtonR
MOV [0x30000012], R0
HLT
integer 0, 0, 0, 0, 0, 0, 0, 0, 0, 0, 0, 0, 0, 0, 0, 0, 0, 0, 0, 0, 0, 0, 0, 0, 0, 0, 0, 0, 0, 0, 0, 0, 0, 0, 0, 0, 0, 0, 0, 0, 0, 0, 0, 0, 0, 0, 0, 0, 0, 0, 0, 0, 0, 0, 0, 0, 0, 0, 0, 0, 0, 0, 0, 0, 0, 0, 0, 0, 0, 0, 0, 0, 0, 0, 0, 0, 0, 0, 0, 0, 0, 0, 0, 0, 0, 0, 0, 0, 0, 0, 0, 0, 0, 0, 0, 0, 0, 0, 0, 0, 0, 0, 0, 0, 0, 0, 0, 0, 0, 0, 0, 0, 0, 0, 0, 0, 0, 0, 0, 0, 0, 0, 0, 0, 0, 0, 0, 0, 0, 0, 0, 0, 0, 0, 0, 0, 0, 0, 0, 0, 0, 0, 0, 0, 0, 0, 0, 0, 0, 0, 0, 0, 0, 0, 0, 0, 0, 0, 0, 0, 0, 0, 0, 0, 0, 0, 0, 0, 0, 0, 0, 0, 0, 0, 0, 0, 0, 0, 0, 0, 0, 0, 0, 0, 0, 0, 0, 0, 0, 0, 0, 0, 0, 0, 0, 0, 0, 0, 0, 0, 0, 0, 0, 0, 0, 0, 0, 0, 0, 0, 0, 0, 0, 0, 0, 0, 0, 0, 0, 0, 0, 0, 0, 0, 0, 0, 0
