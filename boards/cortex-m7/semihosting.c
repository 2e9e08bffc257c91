/* semihosting.c: main on the emulated machine: opens newlib's files on the machine that emulates, runs the program, which is compiled with -Dmain=program, and
   ends the emulation. For tests alone. */
#include <stdio.h>
#include <stdlib.h>

extern void initialise_monitor_handles(void);
extern int program(void);

/* newlib asks for them, and has them in files that are not linked */
void _init(void) {}
void _fini(void) {}

int main(void) {
    initialise_monitor_handles();
    exit(program());
}

void unfit_processor(void) {
    initialise_monitor_handles();
    printf("this processor has no double-precision FPU, which the library needs\n");
    exit(3);
}

void fault(void) {
    printf("fault\n");
    exit(4);
}
