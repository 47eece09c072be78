/* The four calls of Linux that the programs of native/ need, without a C library: what is linked so has the same bytes wherever it is
 * made, and runs on any Linux. A program has `int program(int words, char **word)`, whose answer is its status. */
#ifndef GUVRENDIK_SYSTEM_H
#define GUVRENDIK_SYSTEM_H

#include <stddef.h>
#include <stdint.h>

#if defined(__x86_64__)
enum { CALL_OPEN = 257, CALL_READ = 0, CALL_WRITE = 1, CALL_EXIT = 231 };
static long call(long number, long a, long b, long c, long d) {
    long answer;
    register long fourth __asm__("r10") = d;
    __asm__ volatile("syscall" : "=a"(answer) : "a"(number), "D"(a), "S"(b), "d"(c), "r"(fourth) : "rcx", "r11", "memory");
    return answer;
}
__asm__(".globl _start\n_start: xor %ebp, %ebp\n mov %rsp, %rdi\n and $-16, %rsp\n call begin\n");
#elif defined(__aarch64__)
enum { CALL_OPEN = 56, CALL_READ = 63, CALL_WRITE = 64, CALL_EXIT = 94 };
static long call(long number, long a, long b, long c, long d) {
    register long n __asm__("x8") = number, first __asm__("x0") = a, second __asm__("x1") = b, third __asm__("x2") = c, fourth __asm__("x3") = d;
    __asm__ volatile("svc 0" : "+r"(first) : "r"(n), "r"(second), "r"(third), "r"(fourth) : "memory");
    return first;
}
__asm__(".globl _start\n_start: mov x29, 0\n mov x30, 0\n mov x0, sp\n bl begin\n");
#else
#error "no Linux calls for this processor"
#endif

enum { NO_FILE = -2, INTERRUPTED = -4, NO_ACCESS = -13, IS_FOLDER = -21 };

/* The stack of a new program: how many words it was called with, then the words. */
int program(int words, char **word);
__attribute__((used, noreturn)) void begin(long *stack) {
    int status = program((int)stack[0], (char **)(stack + 1));
    for (;;) call(CALL_EXIT, status, 0, 0, 0);
}

/* What compiled code may call by itself. */
void *memcpy(void *restrict to, const void *restrict from, size_t n) {
    for (size_t i = 0; i < n; i++) ((uint8_t *)to)[i] = ((const uint8_t *)from)[i];
    return to;
}
void *memmove(void *to, const void *from, size_t n) {
    if ((size_t)to <= (size_t)from) {
        for (size_t i = 0; i < n; i++) ((volatile uint8_t *)to)[i] = ((const uint8_t *)from)[i];
    } else {
        while (n-- > 0) ((volatile uint8_t *)to)[n] = ((const uint8_t *)from)[n];
    }
    return to;
}
void *memset(void *to, int byte, size_t n) {
    for (size_t i = 0; i < n; i++) ((uint8_t *)to)[i] = (uint8_t)byte;
    return to;
}

/* Reads the start of a file of the working folder, as much as there is room for. *length is how many bytes; the answer is 0, or the
 * error's number below 0. */
static long load(const char *name, uint8_t *room, size_t size, size_t *length) {
    long file = call(CALL_OPEN, -100, (long)name, 0, 0), got = 1;
    *length = 0;
    if (file < 0) return file;
    while (*length < size && got != 0) {
        got = call(CALL_READ, file, (long)(room + *length), (long)(size - *length), 0);
        if (got == INTERRUPTED) continue;
        if (got < 0) return got;
        *length += (size_t)got;
    }
    return 0;
}

/* Writes all the bytes; the answer is whether that went well. */
static int put(long file, const uint8_t *bytes, size_t length) {
    while (length > 0) {
        long done = call(CALL_WRITE, file, (long)bytes, (long)length, 0);
        if (done == INTERRUPTED) continue;
        if (done <= 0) return 0;
        bytes += done;
        length -= (size_t)done;
    }
    return 1;
}

#endif
