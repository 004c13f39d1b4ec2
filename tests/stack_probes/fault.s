# Made-up functions of the shape that the back end may compile wrong. The first returns before it makes a table of fifteen pages, and the loop that touches
# the new pages overwrites r11, which the first lines have loaded; the second chooses its way by a jump through a table.
    .globl behind_a_jump
    .type behind_a_jump, @function
behind_a_jump:
    movl (%rdi), %r11d
    testl %r11d, %r11d
    je 2f
    leaq -61440(%rsp), %r11
1:  subq $3072, %rsp
    movq $0, (%rsp)
    cmpq %r11, %rsp
    jne 1b
    movl %r11d, (%rsp)
    addq $61440, %rsp
2:  ret
    .size behind_a_jump, . - behind_a_jump

    .globl behind_a_table
    .type behind_a_table, @function
behind_a_table:
    jmp *(%rdi)
    leaq -61440(%rsp), %r11
1:  subq $3072, %rsp
    movq $0, (%rsp)
    cmpq %r11, %rsp
    jne 1b
    addq $61440, %rsp
    ret
    .size behind_a_table, . - behind_a_table
    .section .note.GNU-stack, "", @progbits
