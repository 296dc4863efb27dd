/* bare.c: what the C programs beside it need where there is no C library: a start, octets in and out by the kernel's own calls, and what a
 * compiler calls by itself. For Linux on armv7a, aarch64 and riscv64; tests/linkbox/others runs them under an emulator. */
#include <stddef.h>
#include <stdint.h>

#if defined(__arm__)
enum { CALL_READ = 3, CALL_WRITE = 4, CALL_EXIT = 1 };
#else
enum { CALL_READ = 63, CALL_WRITE = 64, CALL_EXIT = 93 };
#endif

int main(void);

/* A call of the kernel with three words. */
static long kernel(long number, long first, long second, long third) {
#if defined(__aarch64__)
    register long a __asm__("x0") = first, b __asm__("x1") = second, c __asm__("x2") = third, n __asm__("x8") = number;
    __asm__ volatile("svc #0" : "+r"(a) : "r"(b), "r"(c), "r"(n) : "memory");
#elif defined(__arm__)
    register long a __asm__("r0") = first, b __asm__("r1") = second, c __asm__("r2") = third, n __asm__("r7") = number;
    __asm__ volatile("svc #0" : "+r"(a) : "r"(b), "r"(c), "r"(n) : "memory");
#else
    register long a __asm__("a0") = first, b __asm__("a1") = second, c __asm__("a2") = third, n __asm__("a7") = number;
    __asm__ volatile("ecall" : "+r"(a) : "r"(b), "r"(c), "r"(n) : "memory");
#endif
    return a;
}

static uint8_t in[4096], out[4096];
static size_t in_at, in_end, out_end;

static void flush(void) {
    size_t at = 0;
    while (at < out_end) {
        long wrote = kernel(CALL_WRITE, 1, (long)(out + at), (long)(out_end - at));
        if (wrote <= 0) break;
        at += (size_t)wrote;
    }
    out_end = 0;
}

int putchar(int octet) {
    if (out_end == sizeof out) flush();
    out[out_end++] = (uint8_t)octet;
    return octet;
}

int getchar(void) {
    if (in_at == in_end) {
        long got = kernel(CALL_READ, 0, (long)in, sizeof in);
        if (got <= 0) return -1;
        in_at = 0;
        in_end = (size_t)got;
    }
    return in[in_at++];
}

void *memcpy(void *to, const void *from, size_t octets) {
    volatile uint8_t *at = to;
    for (size_t i = 0; i < octets; i++) at[i] = ((const uint8_t *)from)[i];
    return to;
}

void *memmove(void *to, const void *from, size_t octets) {
    volatile uint8_t *at = to;
    if (to < from) return memcpy(to, from, octets);
    while (octets-- > 0) at[octets] = ((const uint8_t *)from)[octets];
    return to;
}

void *memset(void *to, int octet, size_t octets) {
    volatile uint8_t *at = to;
    for (size_t i = 0; i < octets; i++) at[i] = (uint8_t)octet;
    return to;
}

#if defined(__arm__)
/* Division of 64 bits, bit by bit: quotient, and the rest at a place. */
uint64_t divide(uint64_t number, uint64_t by, uint64_t *rest) {
    uint64_t quotient = 0, left = 0;
    for (int bit = 63; bit >= 0; bit--) {
        left = left << 1 | (number >> bit & 1);
        if (left >= by) {
            left -= by;
            quotient |= (uint64_t)1 << bit;
        }
    }
    *rest = left;
    return quotient;
}

__asm__(".global __aeabi_uldivmod\n__aeabi_uldivmod:\n"
        "push {r11, lr}\nsub sp, sp, #16\nadd r12, sp, #8\nstr r12, [sp]\nbl divide\n"
        "ldr r2, [sp, #8]\nldr r3, [sp, #12]\nadd sp, sp, #16\npop {r11, pc}\n");
#endif

void _start(void) {
    int status = main();
    flush();
    kernel(CALL_EXIT, status, 0, 0);
    for (;;) {}
}
