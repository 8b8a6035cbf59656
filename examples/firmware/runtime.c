/* What the library and the programs of this folder need of a C compiler's own library: so that the kit's clang is enough to build them. A product takes
 * these from its compiler (libgcc or compiler-rt, newlib). Division is by shifts, or by the processor's own where it has one and 32 bits are enough: nothing
 * here may call what it defines. */
#include <stdarg.h>
#include <stdint.h>
#include <stdio.h>
#include <string.h>

#include "board.h"

/* Four bytes of whatever lies there. */
typedef uint32_t __attribute__((may_alias)) word;

void *memcpy(void *to, const void *from, size_t bytes)
{
    unsigned char *t = to;
    const unsigned char *f = from;
    if (((uintptr_t)to | (uintptr_t)from) % 4 == 0)
        for (; bytes >= 4; bytes -= 4, t += 4, f += 4)
            *(word *)t = *(const word *)f;
    while (bytes-- > 0)
        *t++ = *f++;
    return to;
}

void *memset(void *to, int byte, size_t bytes)
{
    unsigned char *t = to;
    if ((uintptr_t)to % 4 == 0)
        for (; bytes >= 4; bytes -= 4, t += 4)
            *(word *)t = 0x01010101u * (unsigned char)byte;
    while (bytes-- > 0)
        *t++ = (unsigned char)byte;
    return to;
}

/* The quotient; what is left goes to *rest. For a divisor of 0, which no proved code has, it gives some number. */
__attribute__((used)) uint64_t divide(uint64_t n, uint64_t by, uint64_t *rest)
{
    uint64_t quotient = 0, r = 0;
#if defined __ARM_FEATURE_IDIV || defined __riscv_div
    if ((n | by) >> 32 == 0 && by != 0) {
        *rest = (uint32_t)n % (uint32_t)by;
        return (uint32_t)n / (uint32_t)by;
    }
#endif
    for (int bit = 0; bit < 64; bit++) {
        r = r << 1 | n >> 63;
        n <<= 1;
        quotient <<= 1;
        if (r >= by) {
            r -= by;
            quotient |= 1;
        }
    }
    *rest = r;
    return quotient;
}

#if defined __arm__
void __aeabi_memcpy(void *to, const void *from, size_t bytes) { memcpy(to, from, bytes); }
void __aeabi_memcpy4(void *to, const void *from, size_t bytes) { memcpy(to, from, bytes); }
void __aeabi_memcpy8(void *to, const void *from, size_t bytes) { memcpy(to, from, bytes); }
void __aeabi_memclr(void *to, size_t bytes) { memset(to, 0, bytes); }
void __aeabi_memclr4(void *to, size_t bytes) { memset(to, 0, bytes); }
void __aeabi_memclr8(void *to, size_t bytes) { memset(to, 0, bytes); }
void __aeabi_memset(void *to, size_t bytes, int byte) { memset(to, byte, bytes); }

/* quotient in r0 and r1, rest in r2 and r3 */
__attribute__((naked)) void __aeabi_uldivmod(void)
{
    __asm__("push {r4, lr}\nsub sp, #16\nadd r4, sp, #8\nstr r4, [sp]\nbl divide\nldr r2, [sp, #8]\nldr r3, [sp, #12]\nadd sp, #16\npop {r4, pc}");
}

uint32_t __aeabi_uidiv(uint32_t n, uint32_t by)
{
    uint64_t rest;
    return (uint32_t)divide(n, by, &rest);
}

/* quotient in r0, rest in r1 */
__attribute__((naked)) void __aeabi_uidivmod(void)
{
    __asm__("push {r4, lr}\nsub sp, #16\nadd r4, sp, #8\nstr r4, [sp]\nmovs r2, r1\nmovs r1, #0\nmovs r3, #0\n"
            "bl divide\nldr r1, [sp, #8]\nadd sp, #16\npop {r4, pc}");
}

/* 64-bit product, of 16-bit ones where there is no longer multiplication */
uint64_t __aeabi_lmul(uint64_t a, uint64_t b)
{
    uint32_t a0 = (uint32_t)a, b0 = (uint32_t)b, al = a0 & 0xffff, ah = a0 >> 16, bl = b0 & 0xffff, bh = b0 >> 16;
    uint32_t middle = ah * bl + (al * bl >> 16), low = al * bh + (middle & 0xffff);
    uint32_t high = ah * bh + (middle >> 16) + (low >> 16) + (uint32_t)(a >> 32) * b0 + a0 * (uint32_t)(b >> 32);
    return (uint64_t)high << 32 | (low << 16 | (al * bl & 0xffff));
}
#else
uint64_t __udivdi3(uint64_t n, uint64_t by)
{
    uint64_t rest;
    return divide(n, by, &rest);
}

uint64_t __umoddi3(uint64_t n, uint64_t by)
{
    uint64_t rest;
    divide(n, by, &rest);
    return rest;
}
#endif

static void print_number(uint32_t n, uint32_t base)
{
    char digits[10];
    size_t first = sizeof digits;
    do {
        digits[--first] = "0123456789abcdef"[n % base];
        n /= base;
    } while (n > 0);
    board_write(digits + first, sizeof digits - first);
}

/* %s, %u and %x alone */
int printf(const char *format, ...)
{
    va_list more;
    va_start(more, format);
    for (const char *p = format; *p != 0; p++) {
        size_t count = 0;
        if (*p != '%') {
            while (p[count] != 0 && p[count] != '%')
                count++;
            board_write(p, count);
            p += count - 1;
        } else if (*++p == 's') {
            const char *word = va_arg(more, const char *);
            while (word[count] != 0)
                count++;
            board_write(word, count);
        } else {
            print_number(va_arg(more, unsigned), *p == 'x' ? 16 : 10);
        }
    }
    va_end(more);
    return 0;
}
