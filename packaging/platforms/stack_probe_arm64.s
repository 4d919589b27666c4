// __chkstk of a Windows DLL that is linked without a C runtime: touches each page of the stack that a large frame takes,
// from the top down, so that Windows extends the stack. x15 has the bytes of the frame by 16; x16 and x17 change.
    .globl __chkstk
__chkstk:
    lsl x16, x15, #4
    mov x17, sp
0:  sub x17, x17, #4096
    subs x16, x16, #4096
    ldr xzr, [x17]
    b.gt 0b
    ret
