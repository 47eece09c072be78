/* Calls guvrendik_contains from C as the portal will: 01's nine examples, each path ending, and then beginning, at a page that
 * cannot be read; empty paths as NULL; and the stack of one call. Prints a line to a failure and 'N passed, M failed'. */
#define _GNU_SOURCE
#include "guvrendik.h"

#include <stdbool.h>
#include <stdio.h>
#include <string.h>
#include <sys/mman.h>
#include <ucontext.h>
#include <unistd.h>

_Static_assert(sizeof(guvrendik_containment) == 16 && offsetof(guvrendik_containment, contained) == 0 &&
                   offsetof(guvrendik_containment, length) == 8, "layout");

/* 01, "Fixed examples": containment; and T-12, "the length of the trimmed outer path, 0 with a no". */
static const struct {
    const char *inner, *outer;
    uint32_t contained;
    size_t length;
} examples[] = {
    {"site/a", "site/a", 1, 6},   /* `site/a` in itself yes */
    {"site/a/b", "site/a", 1, 6}, /* `site/a/b` in `site/a` yes */
    {"site/ab", "site/a", 0, 0},  /* `site/ab` in `site/a` no */
    {"site/a", "site/a/", 1, 6},  /* `site/a` in `site/a/` yes */
    {"x", "", 1, 0},              /* `x` in empty yes */
    {"", "/", 1, 0},              /* empty in `/` yes */
    {"x", "/", 0, 0},             /* `x` in `/` no */
    {"a/../b", "a/../b", 0, 0},   /* `a/../b` in itself no */
    {"a..b", "a..b", 1, 4},       /* `a..b` in itself yes */
};

static unsigned passed, failed;

static void expect(bool held, const char *what) {
    if (held) {
        passed++;
    } else {
        failed++;
        printf("failed: %s\n", what);
    }
}

/* A page with an unreadable one on each side. */
static uint8_t *guarded_page(size_t page) {
    uint8_t *start = mmap(NULL, 3 * page, PROT_NONE, MAP_PRIVATE | MAP_ANONYMOUS, -1, 0);
    if (start == MAP_FAILED || mprotect(start + page, page, PROT_READ | PROT_WRITE) != 0) {
        perror("guarded page");
        _exit(1);
    }
    return start + page;
}

static void run_examples(void) {
    size_t page = (size_t)sysconf(_SC_PAGESIZE);
    uint8_t *outer = guarded_page(page), *inner = guarded_page(page);
    for (size_t i = 0; i < sizeof examples / sizeof *examples; i++) {
        size_t outer_len = strlen(examples[i].outer), inner_len = strlen(examples[i].inner);
        for (int at_end = 0; at_end < 2; at_end++) {
            uint8_t *o = at_end ? outer + page - outer_len : outer;
            uint8_t *p = at_end ? inner + page - inner_len : inner;
            memcpy(o, examples[i].outer, outer_len);
            memcpy(p, examples[i].inner, inner_len);
            guvrendik_containment answer = guvrendik_contains(o, outer_len, p, inner_len);
            char what[64];
            snprintf(what, sizeof what, "'%s' in '%s'", examples[i].inner, examples[i].outer);
            expect(answer.contained == examples[i].contained && answer.length == examples[i].length, what);
            expect(memcmp(o, examples[i].outer, outer_len) == 0 && memcmp(p, examples[i].inner, inner_len) == 0, what);
        }
    }
}

static uint8_t longest[65536];
static guvrendik_containment longest_answer;

static void one_call(void) { longest_answer = guvrendik_contains(longest, sizeof longest, longest, sizeof longest); }

static void no_call(void) {}

/* How far below the top of a fresh stack a function wrote. It runs in a context of its own and not in a thread, whose start and
 * end take more stack than the call and would hide it. */
static size_t stack_of(void (*body)(void)) {
    enum { SIZE = 1 << 20, PAINT = 0xA5 };
    static uint8_t stack[SIZE] __attribute__((aligned(4096)));
    static ucontext_t here, there;
    memset(stack, PAINT, SIZE);
    if (getcontext(&there) != 0) {
        perror("context");
        _exit(1);
    }
    there.uc_stack.ss_sp = stack;
    there.uc_stack.ss_size = SIZE;
    there.uc_link = &here;
    makecontext(&there, body, 0);
    if (swapcontext(&here, &there) != 0) {
        perror("context");
        _exit(1);
    }
    size_t untouched = 0;
    while (untouched < SIZE && stack[untouched] == PAINT) {
        untouched++;
    }
    return SIZE - untouched;
}

int main(void) {
    run_examples();
    guvrendik_containment answer = guvrendik_contains(NULL, 0, NULL, 0);
    expect(answer.contained == 1 && answer.length == 0, "the empty path in itself, as NULL");
    answer = guvrendik_contains(NULL, 0, (const uint8_t *)"x", 1);
    expect(answer.contained == 1 && answer.length == 0, "'x' in the empty path, as NULL");
    memset(longest, 'a', sizeof longest);
    size_t idle = stack_of(no_call), used = stack_of(one_call);
    expect(longest_answer.contained == 1 && longest_answer.length == sizeof longest, "a path of 65,536 bytes in itself");
    printf("stack of one call: %zu bytes\n", used - idle);
    expect(idle < used && used < idle + 1024, "a call takes some stack, less than 1 KB");
    printf("%u passed, %u failed\n", passed, failed);
    return failed != 0;
}
