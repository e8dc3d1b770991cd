// How deep a call goes: the stack below this frame is painted, the call made, and the lowest byte that changed is found; with two colours,
// so that a byte which happens to be written with the one is seen with the other. A byte that a frame holds and never writes is not seen.
typedef unsigned char u8;
#define DEEPEST 1000000

unsigned long stack_of(void (*call)(void *), void *side)
{
    unsigned long deepest = 0;
    for (int colour = 0x5A; colour < 0x100; colour += 0x5A) {
        volatile u8 *sp, *p;
#ifdef __aarch64__
        __asm__ volatile("mov %0,sp" : "=r"(sp));
#else
        __asm__ volatile("mov %%rsp,%0" : "=r"(sp));
#endif
        for (p = sp - DEEPEST; p < sp; p++)
            *p = colour;
        call(side);
        for (p = sp - DEEPEST; p < sp && *p == colour; p++)
            ;
        if ((unsigned long)(sp - p) > deepest)
            deepest = sp - p;
    }
    return deepest;
}
