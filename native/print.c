/* The printing programs for a processor that the kit does not compile for, in the place of those of crates/: compiled with PRINTS as VERDICT,
 * PLAN or JSON. Each reads the start of its files in the working folder, 65,536 bytes and no more, hands the texts to the library and
 * prints what it answers. A file that cannot be read counts as empty. */
#include "guvrendik.h"
#include "system.h"

#define VERDICT 1
#define PLAN 2
#define JSON 3

enum { MOST = 65536 };
typedef struct {
    uint8_t bytes[MOST];
    size_t length;
} text;

static text texts[3];
static uint8_t lines[GUVRENDIK_TEXT_PLAN_VERDICT]; /* the longest of the three */

static void read_text(text *t, const char *name) {
    if (load(name, t->bytes, MOST, &t->length) < 0) t->length = 0;
}

int program(int words, char **word) {
    guvrendik_written written;
    (void)words, (void)word;
    read_text(&texts[0], "register.txt");
#if PRINTS == VERDICT
    read_text(&texts[1], "action.txt");
    written = guvrendik_verdict_text(texts[0].bytes, texts[0].length, texts[1].bytes, texts[1].length, lines, sizeof lines);
#elif PRINTS == PLAN
    read_text(&texts[1], "plan.txt");
    written = guvrendik_plan_verdict_text(texts[0].bytes, texts[0].length, texts[1].bytes, texts[1].length, lines, sizeof lines);
#else
    read_text(&texts[1], "clock.txt");
    read_text(&texts[2], "action.json");
    written = guvrendik_json_verdict_text(texts[0].bytes, texts[0].length, texts[1].bytes, texts[1].length, texts[2].bytes,
                                          texts[2].length, lines, sizeof lines);
#endif
    return written.accepted == 1 && put(1, lines, written.length) ? 0 : 127;
}
