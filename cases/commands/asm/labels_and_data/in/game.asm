start: MOV R1, 5
JT R1, done
integer 7
done: HLT
pointer start, done
