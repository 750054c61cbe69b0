start: MOV R1, 5
JT R1, done
integer 7, 007, -0x10
done: HLT ; @ 
pointer start, done

 JMP nowhere
nowhere: MOV R1, [BP-2]
MOV R1, [ BP - 2 ]
MOV R1, [BP--2]
MOV R1, [BP+-2]
x: mov [x],sp
mov[r15+x],r13
Hlt
Lea r1, [bp]
LEA R2, [BP+x]
IN R0, GPU_Command
OUT GPU_RegionHotSpotX, 5
OUT 16383, -1
string "a\x41"
STRING ""
GPU_DrawingAngle: JMP GPU_DrawingAngle
