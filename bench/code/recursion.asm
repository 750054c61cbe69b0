        MOV R0, 16
        CALL fib
        OUT GPU_ClearColor, R0
        HLT
; R0 takes its Fibonacci number
fib:    MOV R1, R0
        ILT R1, 2
        JT R1, small
        PUSH R0
        ISUB R0, 1
        CALL fib
        POP R1
        PUSH R0
        MOV R0, R1
        ISUB R0, 2
        CALL fib
        POP R1
        IADD R0, R1
small:  RET
