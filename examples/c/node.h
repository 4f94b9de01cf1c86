/* What a program can ask of the machine: an ECALL whose service is in a7. */
#ifndef NODE_H
#define NODE_H

/* Puts a byte on the output. It is released once a checkpoint after it has been validated. */
static inline void put(unsigned char byte)
{
    register unsigned a0 __asm__("a0") = byte;
    register unsigned a7 __asm__("a7") = 1;
    __asm__ volatile("ecall" : : "r"(a0), "r"(a7) : "memory");
}

/* Gives the next byte of the node's input. */
static inline unsigned char get(void)
{
    register unsigned a0 __asm__("a0");
    register unsigned a7 __asm__("a7") = 2;
    __asm__ volatile("ecall" : "=r"(a0) : "r"(a7) : "memory");
    return (unsigned char)a0;
}

#endif
