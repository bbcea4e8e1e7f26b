/* The five services of the machine (docs/MACHINE.md, "Services"): x17 names the call, x10 to x12
   hold its arguments, and x10 takes the answer. A negative answer is an error number. */
#ifndef CLEARVIEW_H
#define CLEARVIEW_H

#include <stddef.h>

enum { SERVICE_READ = 63, SERVICE_WRITE = 64, SERVICE_EXIT = 93, SERVICE_ALLOC = 1000, SERVICE_FREE = 1001 };

static inline int service(int number, unsigned int first, unsigned int second, unsigned int third)
{
    register unsigned int x10 __asm__("x10") = first;
    register unsigned int x11 __asm__("x11") = second;
    register unsigned int x12 __asm__("x12") = third;
    register int x17 __asm__("x17") = number;
    __asm__ volatile("ecall" : "+r"(x10) : "r"(x11), "r"(x12), "r"(x17) : "memory");
    return (int)x10;
}

/* Takes up to `length` bytes of the input; 0 at its end. */
static inline int read_input(void *bytes, size_t length)
{
    return service(SERVICE_READ, 0, (unsigned int)bytes, length);
}

/* Appends bytes to the output, of which a run keeps the first 16,384. */
static inline int write_output(const void *bytes, size_t length)
{
    return service(SERVICE_WRITE, 1, (unsigned int)bytes, length);
}

/* The rest of the input, in a block of the heap with a zero byte behind it; its length without that
   byte goes to `length`, where that is not null. Null where there is no room. */
char *read_all(size_t *length);

#endif
