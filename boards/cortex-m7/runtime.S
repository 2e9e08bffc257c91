/* runtime.S: what the archive for the Cortex-M7 needs from outside, in fewer instructions than libgcc's and newlib's: whole numbers to doubles, copies and
   fills. They use no stack, and of the FPU's registers d0 to d7, which any called function may change. To be linked before -lc and -lgcc. */
    .syntax unified
    .cpu cortex-m7
    .fpu fpv5-d16
    .thumb

/* NAME..: a function under each name */
    .macro function names:vararg
    .irp name, \names
    .global \name
    .type \name, %function
    .thumb_func
\name:
    .endr
    .endm

/* double __aeabi_ul2d(uint64_t), double __aeabi_l2d(int64_t): the upper half times 2^32, which is exact, plus the lower half: one rounding. In r0 and r1 both
   ways. The library calls the first; libgcc has both in one object, so that a program which calls the second would link that beside this. */
    .macro to_double name, upper
    .section .text.\name, "ax", %progbits
    .balign 8
    function \name
    vmov s0, s1, r0, r1
    vcvt.f64.\upper d1, s1
    vcvt.f64.u32 d0, s0
    vldr d2, 0f
    vmul.f64 d1, d1, d2
    vadd.f64 d0, d1, d0
    vmov r0, r1, d0
    bx lr
    .balign 8
0:
    .word 0, 0x41f00000 /* 2^32 */
    .endm
    to_double __aeabi_ul2d, u32
    to_double __aeabi_l2d, s32

/* memcpy(to, from, n): 64 bytes at a time where both lie on words, else bytes. r0 stays, as memcpy's result. */
    .section .text.memcpy, "ax", %progbits
    .balign 8
    function memcpy, __aeabi_memcpy
    orr r3, r0, r1
    lsls r3, r3, #30
    bne copy_bytes
    function __aeabi_memcpy4, __aeabi_memcpy8
    mov r12, r0
    subs r2, #64
    blo copy_rest
copy_64:
    vldmia r1!, {d0-d7}
    vstmia r12!, {d0-d7}
    subs r2, #64
    bhs copy_64
copy_rest:
    lsls r3, r2, #27 /* carry: 32 more; negative: 16 more */
    itt cs
    vldmiacs r1!, {d0-d3}
    vstmiacs r12!, {d0-d3}
    itt mi
    vldmiami r1!, {d0-d1}
    vstmiami r12!, {d0-d1}
    lsls r3, r2, #29 /* carry: 8 more; negative: 4 more */
    itt cs
    vldmiacs r1!, {d0}
    vstmiacs r12!, {d0}
    itt mi
    ldrmi r3, [r1], #4
    strmi r3, [r12], #4
    lsls r2, r2, #31 /* carry: 2 more; negative: 1 more */
    itt cs
    ldrhcs r3, [r1], #2
    strhcs r3, [r12], #2
    itt mi
    ldrbmi r3, [r1]
    strbmi r3, [r12]
    bx lr
copy_bytes:
    add r2, r2, r0
    mov r12, r0
copy_byte:
    cmp r12, r2
    it eq
    bxeq lr
    ldrb r3, [r1], #1
    strb r3, [r12], #1
    b copy_byte

/* memset(to, byte, n); __aeabi_memset(to, n, byte); __aeabi_memclr(to, n). r0 stays. */
    .section .text.memset, "ax", %progbits
    .balign 8
    function memset
    mov r3, r1
    mov r1, r2
    mov r2, r3
    b fill
    function __aeabi_memclr, __aeabi_memclr4, __aeabi_memclr8
    movs r2, #0
    function __aeabi_memset, __aeabi_memset4, __aeabi_memset8
fill:
    mov r12, r0
    lsls r3, r0, #30
    bne fill_bytes
    uxtb r2, r2
    orr r2, r2, r2, lsl #8
    orr r2, r2, r2, lsl #16
    vmov d0, r2, r2
    vmov d1, r2, r2
    subs r1, #32
    blo fill_rest
    vmov d2, r2, r2
    vmov d3, r2, r2
fill_32:
    vstmia r12!, {d0-d3}
    subs r1, #32
    bhs fill_32
fill_rest:
    lsls r3, r1, #28 /* carry: 16 more; negative: 8 more */
    it cs
    vstmiacs r12!, {d0-d1}
    it mi
    vstmiami r12!, {d0}
    lsls r3, r1, #30 /* carry: 4 more; negative: 2 more */
    it cs
    strcs r2, [r12], #4
    it mi
    strhmi r2, [r12], #2
    lsls r1, r1, #31
    it mi
    strbmi r2, [r12]
    bx lr
fill_bytes:
    add r1, r1, r0
fill_byte:
    cmp r12, r1
    it eq
    bxeq lr
    strb r2, [r12], #1
    b fill_byte

    .section .note.GNU-stack, "", %progbits
