/* The fingerprint book: a human attaches a report's fingerprint and its reader fetches it; then anew. Who may not is refused, and a full
 * book takes no new number. Every result is checked; the first that is not as it must be ends the program. */
#include "guvrendik.h"

#include <stdio.h>
#include <stdlib.h>
#include <string.h>

static const char register_text[] =
    "register=1\n"
    "actors=3\n"
    "actor=1\nkind=human\nowner=0\n"
    "actor=2\nkind=machine\nowner=1\n"
    "actor=3\nkind=human\nowner=0\n"
    "resources=1\n"
    "resource=10\npublic=0\nkeeper=1\nscope=site/a\n"
    "claims=2\n"
    "claim=1\nparent=0\ngrantor=1\nholder=1\nresource=10\nrights=19\nweight=1000\nexpiry=0\n"
    "claim=2\nparent=1\ngrantor=1\nholder=2\nresource=10\nrights=1\nweight=600\nexpiry=2000\n";

static const uint64_t now = 1999;

static void demand(int holds, const char *what) {
    if (!holds) {
        fprintf(stderr, "book: %s\n", what);
        exit(1);
    }
}

static void print_refusal(uint32_t number) {
    uint8_t words[GUVRENDIK_TEXT_WORDS];
    guvrendik_written w = guvrendik_refusal_text(number, words, sizeof words);
    demand(w.accepted == 1, "the words for a refusal fit");
    printf("refused with %u: %.*s\n", (unsigned)number, (int)w.length, (const char *)words);
}

/* Attaches 32 bytes of one value to report 10. The book handed back is the caller's from then on, refused or not. */
static guvrendik_book attach(guvrendik_book book, guvrendik_register r, uint32_t actor, uint8_t byte) {
    guvrendik_fingerprint f;
    memset(f.bytes, byte, sizeof f.bytes);
    guvrendik_attached a = guvrendik_attach(book, r, actor, 10, now, f);
    printf("actor %u attaches: ", (unsigned)actor);
    if (a.accepted == 1)
        printf("accepted, %zu in the book\n", a.book.count);
    else
        print_refusal(a.refusal);
    return a.book;
}

static void fetch(guvrendik_book book, guvrendik_register r, uint32_t actor) {
    guvrendik_fetched f = guvrendik_fetch(book, r, actor, 10, now);
    printf("actor %u fetches: ", (unsigned)actor);
    if (f.accepted != 1) {
        print_refusal(f.refusal);
        return;
    }
    for (size_t i = 0; i < GUVRENDIK_LIMIT_FINGERPRINT; i++) printf("%02x", (unsigned)f.fingerprint.bytes[i]);
    printf("\n");
}

int main(void) {
    guvrendik_register_read read = guvrendik_read_register((const uint8_t *)register_text, strlen(register_text));
    demand(read.accepted == 1, "the register is read");
    guvrendik_register r = read.state;
    guvrendik_book book, full;
    memset(&book, 0, sizeof book);
    fetch(book, r, 2);
    book = attach(book, r, 1, 0xab);
    fetch(book, r, 2);
    book = attach(book, r, 1, 0xcd);
    fetch(book, r, 2);
    book = attach(book, r, 2, 0xef);
    fetch(book, r, 3);
    demand(book.count == 1, "a refused attach changes nothing");
    memset(&full, 0, sizeof full);
    for (; full.count < GUVRENDIK_LIMIT_ENTRIES; full.count++) full.entries[full.count].resource = 100 + (uint32_t)full.count;
    full = attach(full, r, 1, 0xab);
    demand(full.count == GUVRENDIK_LIMIT_ENTRIES, "a full book stays full");
    return 0;
}
