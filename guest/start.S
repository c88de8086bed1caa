# The entry of a guest: sets the registers that compiled code rests on, and hands the first stack to start_c of glue.c.
    .section .text.start, "ax"
    .globl _start
    .type _start, @function
_start:
    .option push
    .option norelax
    la gp, __global_pointer$    # small data is reached from here
    .option pop
    la tp, __tls_base           # errno and other variables of the one thread
    mv a0, sp                   # argc, argv and the environment
    andi sp, sp, -16
    call start_c
    .size _start, . - _start
