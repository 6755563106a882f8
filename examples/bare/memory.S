@ memset and memcpy for any Cortex-M, with the names that ARM's compilers call. Most of a board's time with one byte is memset, so a
@ loop over bytes makes that call many times slower. memcpy goes upwards: memmove in memory.c counts on it.
    .syntax unified
    .thumb

    .section .text.memset, "ax", %progbits
    .global __aeabi_memclr, __aeabi_memclr4, __aeabi_memclr8
    .thumb_func
__aeabi_memclr:                 @ r0 to, r1 n
    .thumb_func
__aeabi_memclr4:
    .thumb_func
__aeabi_memclr8:
    mov     r2, r1
    movs    r1, #0
    b       memset
    .global __aeabi_memset, __aeabi_memset4, __aeabi_memset8
    .thumb_func
__aeabi_memset:                 @ r0 to, r1 n, r2 byte
    .thumb_func
__aeabi_memset4:
    .thumb_func
__aeabi_memset8:
    mov     r3, r1
    mov     r1, r2
    mov     r2, r3
    .global memset
    .thumb_func
memset:                         @ r0 to, r1 byte, r2 n
    mov     r12, r0
    uxtb    r1, r1              @ the byte four times
    lsls    r3, r1, #8
    orrs    r1, r3
    lsls    r3, r1, #16
    orrs    r1, r3
1:  lsls    r3, r0, #30         @ bytes up to a word
    beq     2f
    cmp     r2, #0
    beq     7f
    strb    r1, [r0]
    adds    r0, #1
    subs    r2, #1
    b       1b
2:  subs    r2, #64             @ 64 bytes a turn
    blo     4f
    push    {r4, r5}
    mov     r3, r1
    mov     r4, r1
    mov     r5, r1
3:  stmia   r0!, {r1, r3, r4, r5}
    stmia   r0!, {r1, r3, r4, r5}
    stmia   r0!, {r1, r3, r4, r5}
    stmia   r0!, {r1, r3, r4, r5}
    subs    r2, #64
    bhs     3b
    pop     {r4, r5}
4:  adds    r2, #64
    subs    r2, #4              @ words
    blo     6f
5:  stmia   r0!, {r1}
    subs    r2, #4
    bhs     5b
6:  adds    r2, #4              @ bytes that are left
    beq     7f
8:  strb    r1, [r0]
    adds    r0, #1
    subs    r2, #1
    bne     8b
7:  mov     r0, r12
    bx      lr

    .section .text.memcpy, "ax", %progbits
    .global memcpy, __aeabi_memcpy, __aeabi_memcpy4, __aeabi_memcpy8
    .thumb_func
__aeabi_memcpy:
    .thumb_func
__aeabi_memcpy4:
    .thumb_func
__aeabi_memcpy8:
    .thumb_func
memcpy:                         @ r0 to, r1 from, r2 n
    push    {r0, r4, r5, r6, r7, lr}
    movs    r3, r0
    eors    r3, r1
    lsls    r3, r3, #30         @ by words only where both are aligned alike
    bne     6f
1:  lsls    r3, r0, #30         @ bytes up to a word
    beq     2f
    cmp     r2, #0
    beq     7f
    ldrb    r3, [r1]
    strb    r3, [r0]
    adds    r0, #1
    adds    r1, #1
    subs    r2, #1
    b       1b
2:  subs    r2, #16             @ 16 bytes a turn
    blo     4f
3:  ldmia   r1!, {r4, r5, r6, r7}
    stmia   r0!, {r4, r5, r6, r7}
    subs    r2, #16
    bhs     3b
4:  adds    r2, #16
    subs    r2, #4              @ words
    blo     8f
5:  ldmia   r1!, {r3}
    stmia   r0!, {r3}
    subs    r2, #4
    bhs     5b
8:  adds    r2, #4
6:  subs    r2, #1              @ bytes that are left
    blo     7f
    ldrb    r3, [r1]
    strb    r3, [r0]
    adds    r0, #1
    adds    r1, #1
    b       6b
7:  pop     {r0, r4, r5, r6, r7, pc}
