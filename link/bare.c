/* Enough of a C library to run agree.c on Linux with none: a start, a write, and the copies that compilers call. */
#include <stdint.h>

int main(void);

#if defined(__x86_64__)
static long call(long n, long a, long b, long c)
{
    long r;
    __asm__ volatile("syscall" : "=a"(r) : "a"(n), "D"(a), "S"(b), "d"(c) : "rcx", "r11", "memory");
    return r;
}
enum { WRITE = 1, EXIT = 60 };
__asm__(".globl _start\n_start: and $-16, %rsp\ncall begin\n");
#elif defined(__aarch64__)
static long call(long n, long a, long b, long c)
{
    register long x8 __asm__("x8") = n, x0 __asm__("x0") = a, x1 __asm__("x1") = b, x2 __asm__("x2") = c;
    __asm__ volatile("svc 0" : "+r"(x0) : "r"(x8), "r"(x1), "r"(x2) : "memory");
    return x0;
}
enum { WRITE = 64, EXIT = 93 };
__asm__(".globl _start\n_start: bl begin\n");
#else
static long call(long n, long a, long b, long c)
{
    register long r0 __asm__("r0") = a, r1 __asm__("r1") = b, r2 __asm__("r2") = c;
    __asm__ volatile("push {r7}\nmov r7, %1\nsvc 0\npop {r7}" : "+r"(r0) : "r"(n), "r"(r1), "r"(r2) : "memory");
    return r0;
}
enum { WRITE = 4, EXIT = 1 };
__asm__(".syntax unified\n.thumb\n.globl _start\n.thumb_func\n_start: bl begin\n");
int raise(int signal)
{
    call(EXIT, signal, 0, 0);
    return 0;
}
#endif

__attribute__((used)) void begin(void)
{
    call(EXIT, main(), 0, 0);
    for (;;)
        ;
}

void say(const char *text, uint64_t number)
{
    char line[40];
    int n = 0;
    while (text[n] != 0)
        line[n] = text[n], n++;
    if (text[0] != '\n')
        for (int i = 60; i >= 0; i -= 4)
            line[n++] = "0123456789abcdef"[number >> i & 15];
    call(WRITE, 1, (long)line, n);
}

void *memcpy(void *to, const void *from, __SIZE_TYPE__ n)
{
    volatile uint8_t *t = to;
    const uint8_t *f = from;
    for (__SIZE_TYPE__ i = 0; i < n; i++)
        t[i] = f[i];
    return to;
}

void *memmove(void *to, const void *from, __SIZE_TYPE__ n)
{
    volatile uint8_t *t = to;
    const uint8_t *f = from;
    if (t <= f)
        return memcpy(to, from, n);
    while (n-- > 0)
        t[n] = f[n];
    return to;
}

void *memset(void *to, int c, __SIZE_TYPE__ n)
{
    volatile uint8_t *t = to;
    for (__SIZE_TYPE__ i = 0; i < n; i++)
        t[i] = (uint8_t)c;
    return to;
}

#if !defined(__x86_64__) && !defined(__aarch64__)
void __aeabi_memcpy(void *to, const void *from, __SIZE_TYPE__ n) { memcpy(to, from, n); }
void __aeabi_memcpy4(void *to, const void *from, __SIZE_TYPE__ n) { memcpy(to, from, n); }
void __aeabi_memcpy8(void *to, const void *from, __SIZE_TYPE__ n) { memcpy(to, from, n); }
void __aeabi_memmove(void *to, const void *from, __SIZE_TYPE__ n) { memmove(to, from, n); }
void __aeabi_memset(void *to, __SIZE_TYPE__ n, int c) { memset(to, c, n); }
void __aeabi_memclr(void *to, __SIZE_TYPE__ n) { memset(to, 0, n); }
void __aeabi_memclr4(void *to, __SIZE_TYPE__ n) { memset(to, 0, n); }
void __aeabi_memclr8(void *to, __SIZE_TYPE__ n) { memset(to, 0, n); }
#endif
