/* The gate for a plan's text: a line to a text, with 01's number of the refusal, 0 where it is accepted, the line, the position, and the verdicts
 * in reading order, each as its number and its number of violations; `x64` behind one stands for so many of them on end.
 *
 * What is expected comes from 02, T-01: "`plan=` with a count, then each step opened by `step=action` or `step=plan`. Nesting goes to 8 levels,
 * the outermost being 1, and 64 actions in all. Verdicts come in reading order and are exactly those of the flat list of the same actions, read
 * with the limit 64 instead of 16; a flag cancels across sub-plan borders"; 19, 20, 22 and 23, "the first failing line deciding, 22 and 23 at
 * the `step=` line, then 1 and 3 as in 01. No refusal gives verdicts". An action without uses has six lines, its `step=action` counted. A line
 * `n before m` has both faults. */
#include "calls.h"

#include <stdarg.h>

static char page[1 << 18];
static size_t page_len;

__attribute__((format(printf, 1, 2))) static void put(const char *format, ...) {
    va_list values;
    va_start(values, format);
    page_len += (size_t)vsnprintf(page + page_len, sizeof page - page_len, format, values);
    va_end(values);
}

/* A new text begins, a plan of so many steps. */
static void plan_of(unsigned steps) {
    page_len = 0;
    put("plan=%u\n", steps);
}

static void sub_plan(unsigned steps) { put("step=plan\nplan=%u\n", steps); }

static void step(uint32_t actor, uint32_t flags) {
    put("step=action\nnow=0\nactor=%u\nflags=%u\nuses=0\ngoverns=0\n", (unsigned)actor, (unsigned)flags);
}

static void steps(unsigned count) {
    for (unsigned i = 0; i < count; i++) step(1, 0);
}

/* Actor 1 reads a resource so often. */
static void reading(unsigned resource, unsigned uses) {
    put("step=action\nnow=0\nactor=1\nflags=0\nuses=%u\n", uses);
    for (unsigned i = 0; i < uses; i++) put("use=%u\nright=0\n", resource);
    put("governs=0\n");
}

/* So many plans in each other, each the only step of the one around it; the innermost has so many steps. */
static void tower_of(unsigned levels, unsigned steps_inside) {
    plan_of(levels == 1 ? steps_inside : 1);
    for (unsigned level = 2; level <= levels; level++) sub_plan(level == levels ? steps_inside : 1);
}

static void print_verdicts(const guvrendik_plan_text_verdict *v) {
    for (size_t i = 0; i < v->count;) {
        size_t end = i + 1;
        while (end < v->count && v->list[end].decision == v->list[i].decision && v->list[end].violations == v->list[i].violations) end++;
        printf(" %u/%u", (unsigned)v->list[i].decision, (unsigned)v->list[i].violations);
        if (end - i > 1) printf(" x%zu", end - i);
        i = end;
    }
    for (size_t i = v->count; i < GUVRENDIK_LIMIT_TEXT_ACTIONS; i++) {
        if (v->list[i].decision != 0 || v->list[i].violations != 0) printf(" past the count %u/%u", (unsigned)v->list[i].decision, (unsigned)v->list[i].violations);
    }
}

static void ask_in(const char *label, Register r) {
    guvrendik_plan_text_verdict v = guvrendik_judge_plan_text(r, (const uint8_t *)page, page_len);
    printf("%s: %u line=%zu position=%zu verdicts", label, (unsigned)v.refusal, v.line, v.position);
    if (v.accepted != (v.refusal == 0)) printf(" accepted=%u", (unsigned)v.accepted);
    print_verdicts(&v);
    printf("\n");
}

static void ask(const char *label) { ask_in(label, base()); }

/* A text as it stands here. */
static void ask_text(const char *label, const char *text) {
    page_len = 0;
    put("%s", text);
    ask(label);
}

/* The text without its last byte. */
static void ask_cut(const char *label) {
    page_len--;
    ask(label);
}

static void forms(void) {
    plan_of(0);
    ask("empty plan");
    plan_of(1);
    reading(10, 1);
    ask("one action");
    plan_of(64);
    steps(64);
    ask("64 actions in one plan");
    plan_of(9);
    for (unsigned level = 2; level <= 8; level++) sub_plan(level == 8 ? 8 : 9);
    steps(64);
    ask("64 actions over eight levels");
    tower_of(8, 1);
    step(4, 0);
    ask("an action at the eighth level");
    tower_of(8, 0);
    ask("eight levels of plans, the last one empty");
    plan_of(64);
    for (unsigned i = 0; i < 64; i++) {
        sub_plan(64);
        for (unsigned k = 0; k < 64; k++) sub_plan(0);
    }
    ask("4096 empty plans");
    plan_of(2);
    sub_plan(64);
    steps(64);
    sub_plan(0);
    ask("an empty plan behind 64 actions");
}

/* Resource 12 does not stand; machine 4 has no owner. */
static void verdicts(void) {
    plan_of(3);
    reading(10, 1);
    sub_plan(2);
    reading(12, 2);
    reading(10, 1);
    step(4, 0);
    ask("verdicts in reading order");
    plan_of(4);
    reading(10, 1);
    reading(12, 2);
    reading(10, 1);
    step(4, 0);
    ask("the same actions in one plan");
    plan_of(2);
    sub_plan(1);
    sub_plan(2);
    reading(10, 1);
    reading(12, 2);
    sub_plan(3);
    sub_plan(0);
    reading(10, 1);
    step(4, 0);
    ask("the same actions in five plans");
    plan_of(3);
    step(1, 0);
    sub_plan(2);
    step(1, 1);
    step(1, 0);
    step(1, 0);
    ask("flag in a sub-plan");
    plan_of(3);
    sub_plan(1);
    step(1, 513);
    sub_plan(1);
    step(1, 1);
    step(4, 0);
    ask("flag in the sub-plan before");
    plan_of(2);
    step(1, 1);
    sub_plan(1);
    step(1, 0);
    ask("flag before a sub-plan");
    plan_of(2);
    for (unsigned level = 2; level <= 8; level++) sub_plan(level == 8 ? 1 : 2);
    step(1, 16);
    steps(7);
    ask("flag at the eighth level");
    plan_of(2);
    sub_plan(63);
    steps(63);
    step(1, 1);
    ask("flag on the 64th");
    plan_of(2);
    sub_plan(1);
    step(4, 0);
    step(1, 0);
    ask("refused in a sub-plan without a flag");
    plan_of(2);
    sub_plan(1);
    put("step=action\nnow=0\nactor=4\nflags=1023\nuses=32\n");
    for (unsigned i = 0; i < 32; i++) put("use=10\nright=0\n");
    put("governs=8\n");
    for (unsigned i = 0; i < 8; i++) put("govern=65535\n");
    step(1, 0);
    ask("51 violations in a sub-plan");
}

static void lines_of_plans(void) {
    ask_text("19 no text", "");
    ask_text("19 plan=00", "plan=00\n");
    ask_text("19 plan=064", "plan=064\n");
    ask_text("20 plan=65", "plan=65\n");
    ask_text("19 plan=65 without LF", "plan=65");
    ask_text("20 plan=2^64", "plan=18446744073709551616\n");
    ask_text("19 plan=65 and a letter", "plan=65x\n");
    ask_text("20 plan=65 in a sub-plan", "plan=1\nstep=plan\nplan=65\n");
    ask_text("19 step=actions", "plan=1\nstep=actions\n");
    ask_text("19 step=Plan", "plan=1\nstep=Plan\nplan=0\n");
    ask_text("19 step= and nothing", "plan=1\nstep=\nplan=0\n");
    ask_text("19 step=plan and a space", "plan=1\nstep=plan \nplan=0\n");
    ask_text("19 step=plan and no plan", "plan=1\nstep=plan\nstep=plan\n");
    ask_text("19 a sub-plan without its step", "plan=1\nplan=0\n");
    ask_text("19 an action without its step", "plan=1\nnow=0\nactor=1\nflags=0\nuses=0\ngoverns=0\n");
    ask_text("19 an action that ends early", "plan=1\nstep=action\nnow=0\nactor=1\nflags=0\nuses=0\n");
    ask_text("19 a step fewer than announced", "plan=2\nstep=plan\nplan=0\n");
    ask_text("19 a step more than announced", "plan=0\nstep=plan\nplan=0\n");
    ask_text("19 a second plan", "plan=0\nplan=0\n");
    ask_text("19 a byte behind the plan", "plan=0\nx");
    ask_text("19 actor 65536", "plan=1\nstep=action\nnow=0\nactor=65536\nflags=0\nuses=0\ngoverns=0\n");
    ask_text("19 flags 1024", "plan=1\nstep=action\nnow=0\nactor=1\nflags=1024\nuses=0\ngoverns=0\n");
    ask_text("20 uses=33", "plan=1\nstep=action\nnow=0\nactor=1\nflags=0\nuses=33\n");
    ask_text("20 governs=9", "plan=1\nstep=action\nnow=0\nactor=1\nflags=0\nuses=0\ngoverns=9\n");
    ask_text("19 before 20", "plan=1\nstep=action\nnow=00\nactor=1\nflags=0\nuses=33\n");
    ask_text("20 before 19", "plan=1\nstep=action\nnow=0\nactor=1\nflags=0\nuses=33\nx");
}

static void limits(void) {
    tower_of(8, 1);
    put("step=plan\n");
    ask("22 ninth level");
    ask_cut("19 ninth level without LF");
    tower_of(9, 1);
    step(1, 0);
    ask("22 ninth level with an action");
    tower_of(8, 2);
    step(1, 0);
    put("step=plan\nplan=65\n");
    ask("22 before 20");
    tower_of(8, 2);
    put("step=action\nnow=0\nactor=1\nflags=1024\nuses=0\ngoverns=0\nstep=plan\n");
    ask("19 before 22");
    plan_of(2);
    sub_plan(64);
    steps(64);
    put("step=action\n");
    ask("23 65th action");
    ask_cut("19 65th action without LF");
    plan_of(2);
    sub_plan(64);
    steps(64);
    put("step=action\nnow=0\nactor=1\nflags=0\nuses=33\n");
    ask("23 before 20");
    plan_of(13);
    for (unsigned i = 0; i < 13; i++) {
        sub_plan(5);
        steps(5);
    }
    ask("23 over 13 plans of five");
    plan_of(65);
    steps(65);
    ask("20 65 actions in one plan");
    plan_of(64);
    steps(63);
    sub_plan(2);
    steps(2);
    ask("23 in the last sub-plan");
}

static void order(void) {
    Register unsound = with_counts(base(), 65, 2, 5);
    plan_of(1);
    step(1, 0);
    ask_in("1 plan text in a register not sound", unsound);
    plan_of(0);
    ask_in("1 empty plan in a register not sound", unsound);
    put("x");
    ask_in("19 before 1", unsound);
    plan_of(65);
    ask_in("20 before 1", unsound);
    tower_of(9, 0);
    ask_in("22 before 1", unsound);
    plan_of(2);
    sub_plan(64);
    steps(64);
    step(1, 0);
    ask_in("23 before 1", unsound);
    plan_of(1);
    step(9, 0);
    ask_in("1 before 3", unsound);
    ask("3 at the first");
    put("x");
    ask("19 before 3");
    plan_of(3);
    step(1, 0);
    sub_plan(2);
    step(1, 0);
    step(9, 0);
    step(9, 0);
    ask("3 at the third, in a sub-plan");
    plan_of(2);
    sub_plan(63);
    steps(63);
    step(0, 0);
    ask("3 at the 64th, actor 0");
    plan_of(2);
    sub_plan(1);
    step(1, 1);
    step(9, 0);
    ask("3 at an action cancelled across a border");
}

void plan_text_lines(void) {
    forms();
    verdicts();
    lines_of_plans();
    limits();
    order();
}
