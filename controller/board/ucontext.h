/* As much of ucontext.h as bench/stack.c wants: a function is run to its end on a stack of its own. */
#include <stddef.h>
#include <stdint.h>

typedef struct ucontext {
    struct { void *ss_sp; size_t ss_size; } uc_stack;
    struct ucontext *uc_link;
    void (*function)(void);
} ucontext_t;

static inline void getcontext(ucontext_t *context)
{
    (void)context;
}

static inline void makecontext(ucontext_t *context, void (*function)(void), int words)
{
    (void)words;
    context->function = function;
}

/* A register that every function keeps holds the old stack meanwhile. */
static inline void swapcontext(ucontext_t *from, const ucontext_t *to)
{
    uintptr_t top = (uintptr_t)to->uc_stack.ss_sp + to->uc_stack.ss_size;
    (void)from;
#if defined __arm__
    register uintptr_t stack __asm__("r4") = top;
    register void (*function)(void) __asm__("r5") = to->function;
    __asm__ volatile("mov r6, sp\n mov sp, r4\n blx r5\n mov sp, r6"
                     : "+r"(stack), "+r"(function) : : "r0", "r1", "r2", "r3", "r6", "r12", "lr", "cc", "memory");
#else
    register uintptr_t stack __asm__("s2") = top;
    register void (*function)(void) __asm__("s3") = to->function;
    __asm__ volatile("mv s4, sp\n mv sp, s2\n jalr s3\n mv sp, s4"
                     : "+r"(stack), "+r"(function) : : "a0", "a1", "a2", "a3", "a4", "a5", "a6", "a7", "t0", "t1", "t2", "t3", "t4",
                       "t5", "t6", "s4", "ra", "memory");
#endif
}
