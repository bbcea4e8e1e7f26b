/* Where a run begins: the stack pointer is set already, and all other registers are 0. What `main`
   returns is the code of the exit. */
__attribute__((naked, section(".text.start"))) void _start(void)
{
    __asm__("call main\n\tcall exit");
}
