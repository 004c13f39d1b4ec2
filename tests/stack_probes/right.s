# The same with the table made first: the loop stands before the first test.
    .globl before_a_jump
    .type before_a_jump, @function
before_a_jump:
    leaq -61440(%rsp), %r11
1:  subq $3072, %rsp
    movq $0, (%rsp)
    cmpq %r11, %rsp
    jne 1b
    movl (%rdi), %r11d
    testl %r11d, %r11d
    je 2f
    movl %r11d, (%rsp)
2:  addq $61440, %rsp
    ret
    .size before_a_jump, . - before_a_jump

# A few steps that are written out behind a jump overwrite no register.
    .globl written_out
    .type written_out, @function
written_out:
    testq %rsi, %rsi
    je 2f
    subq $3072, %rsp
    movq $0, (%rsp)
    subq $3072, %rsp
    movq $0, (%rsp)
    addq $6144, %rsp
2:  ret
    .size written_out, . - written_out
    .section .note.GNU-stack, "", @progbits
