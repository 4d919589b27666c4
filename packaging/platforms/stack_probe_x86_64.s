# ___chkstk_ms of a Windows DLL that is linked without a C runtime: touches each page of the stack that a large frame takes,
# from the top down, so that Windows extends the stack. %rax has the bytes of the frame, and no register changes.
    .globl ___chkstk_ms
___chkstk_ms:
    pushq %rcx
    pushq %rax
    leaq 24(%rsp), %rcx
0:  cmpq $4096, %rax
    jb 1f
    subq $4096, %rcx
    testb %cl, (%rcx)
    subq $4096, %rax
    jmp 0b
1:  subq %rax, %rcx
    testb %cl, (%rcx)
    popq %rax
    popq %rcx
    retq
