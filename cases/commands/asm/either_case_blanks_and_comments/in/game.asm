	; a game

Hlt;the end
 mov r1 , 0x1f	; MOV
End_1:wait
