/* start.c: from reset to main on a Cortex-M7: the FPU on, .data and .bss as C wants them. A start-up file of your own needs the first of these three; link
   runtime.S beside it either way. */
#include <stdint.h>

#if !defined(__ARM_FP) || !(__ARM_FP & 8)
#error "the library works in double precision: compile for a unit that has it, -mcpu=cortex-m7 -mfpu=fpv5-d16 -mfloat-abi=hard"
#endif

#define CPACR (*(volatile uint32_t *)0xE000ED88)       /* who may use the FPU */
#define MVFR0 (*(const volatile uint32_t *)0xE000EF40) /* what the FPU can do; bits 8 to 11 are 0 where it has no double precision */

/* of the linker script */
extern uint32_t stack_top[], data_stored[], data_start[], data_end[], bss_start[], bss_end[];

extern int main(void);

__attribute__((weak)) void unfit_processor(void) {
    for (;;) {
    }
}

__attribute__((weak)) void fault(void) {
    for (;;) {
    }
}

void reset(void) {
    CPACR |= 0xFu << 20;
    __asm volatile("dsb\n\tisb" ::: "memory");
    const uint32_t *from = data_stored;
    for (uint32_t *to = data_start; to < data_end; to++) *to = *from++;
    for (uint32_t *to = bss_start; to < bss_end; to++) *to = 0;
    if ((MVFR0 >> 8 & 0xFu) == 0) unfit_processor();
    main();
    for (;;) {
    }
}

/* The vectors that a program without interrupts needs: the stack, reset, NMI and the faults. */
__attribute__((section(".vectors"), used)) static const uintptr_t vectors[7] = {
    (uintptr_t)stack_top, (uintptr_t)reset, (uintptr_t)fault, (uintptr_t)fault, (uintptr_t)fault, (uintptr_t)fault, (uintptr_t)fault};
