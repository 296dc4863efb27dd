/* painted.c: how deep each call of the archive writes into the stack, on x86-64. It is linked with replay.c, and the linker's --wrap
 * sends every call through here: 4,096 octets below it are painted, the call finds stack and registers as they were, and what is no
 * longer paint is measured. `others`, beside it, defines CALLS as X(name) for each call of the archive. */
#include <stdint.h>
#include <stdio.h>

/* Where the call returns to, kept aside so that its arguments on the stack lie where they must. */
uint64_t painted_return;

/* Before a call rax, r10 and r11 are free; after it rcx, r10 and r11 are. The return address that it pushes is counted. */
#define X(name)                                                                                    \
    uint64_t painted_##name;                                                                       \
    __asm__(".globl __wrap_" #name "\n__wrap_" #name ": pop painted_return(%rip)\n"                \
            "movabs $0x5ca1ab1e0ddba115, %rax\nlea -4096(%rsp), %r10\n"                            \
            "1: mov %rax, (%r10)\nadd $8, %r10\ncmp %rsp, %r10\njb 1b\n"                           \
            "call __real_" #name "\n"                                                              \
            "movabs $0x5ca1ab1e0ddba115, %rcx\nlea -4104(%rsp), %r10\n"                            \
            "2: add $8, %r10\ncmp %rcx, (%r10)\nje 2b\n"                                           \
            "mov %rsp, %r11\nsub %r10, %r11\ncmp painted_" #name "(%rip), %r11\n"                  \
            "jbe 3f\nmov %r11, painted_" #name "(%rip)\n"                                          \
            "3: jmp *painted_return(%rip)\n");
CALLS
#undef X

__attribute__((destructor)) static void say(void) {
#define X(name) fprintf(stderr, "%s %d\n", #name, (int)painted_##name);
    CALLS
}
