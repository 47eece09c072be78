/* The fingerprint book: attaches and fetches, a line to a call.
 *
 * What is expected comes from 02's T-13: an attach is judged as one use of WRITE, a fetch as one of READ; the refusals are 1, 30, 2, 3, 27, then 28
 * of a fetch and 29 of an attach. */
#include "calls.h"

typedef guvrendik_book Book;
typedef guvrendik_fingerprint Fingerprint;

/* A fingerprint of one byte over and over. */
static Fingerprint print_of(uint8_t byte) {
    Fingerprint f;
    memset(f.bytes, byte, sizeof f.bytes);
    return f;
}

static Book no_entries(void) {
    Book b;
    memset(&b, 0, sizeof b);
    return b;
}

/* The book with an entry at a place: the count stays. */
static Book holding(Book b, size_t at, uint32_t resource, uint8_t byte) {
    b.entries[at] = (guvrendik_entry){.resource = resource, .fingerprint = print_of(byte)};
    return b;
}

static Book counting(Book b, size_t count) {
    b.count = count;
    return b;
}

/* A book with entries of the numbers from 100 on, all of byte 7, in every place. */
static Book filled(size_t count) {
    Book b = counting(no_entries(), count);
    for (uint32_t at = 0; at < GUVRENDIK_LIMIT_ENTRIES; at++) b = holding(b, at, 100 + at, 7);
    return b;
}

/* The numbers of an attach, the count, and the places that are not as they came, each with its number and the first and last byte. */
static Book attach(const char *label, Book b, Register r, uint32_t actor, uint32_t resource, uint64_t moment, uint8_t byte) {
    guvrendik_attached a = guvrendik_attach(b, r, actor, resource, moment, print_of(byte));
    printf("attach %s: %u %u count=%zu", label, (unsigned)a.accepted, (unsigned)a.refusal, a.book.count);
    for (size_t at = 0; at < GUVRENDIK_LIMIT_ENTRIES; at++) {
        guvrendik_entry e = a.book.entries[at];
        if (memcmp(&e, &b.entries[at], sizeof e) != 0)
            printf(" %zu:%u:%u:%u", at, (unsigned)e.resource, (unsigned)e.fingerprint.bytes[0], (unsigned)e.fingerprint.bytes[31]);
    }
    printf("\n");
    return a.book;
}

/* The numbers of a fetch, and the byte that the fingerprint has over and over. */
static void fetch(const char *label, Book b, Register r, uint32_t actor, uint32_t resource, uint64_t moment) {
    guvrendik_fetched f = guvrendik_fetch(b, r, actor, resource, moment);
    Fingerprint same = print_of(f.fingerprint.bytes[0]);
    printf("fetch %s: %u %u %s %u\n", label, (unsigned)f.accepted, (unsigned)f.refusal, memcmp(&same, &f.fingerprint, sizeof same) == 0 ? "all" : "mixed",
           (unsigned)f.fingerprint.bytes[0]);
}

/* From the empty book: 1 may write 10, 3 may read it until 2000, anyone may read 11. */
static void row_lines(void) {
    Register r = base();
    fetch("of nothing", no_entries(), r, 1, 10, 0);
    Book b = attach("first", no_entries(), r, 1, 10, 0, 7);
    fetch("first", b, r, 3, 10, 1999);
    b = attach("without WRITE", b, r, 3, 10, 1999, 8);
    b = attach("anew", b, r, 2, 10, 0, 9);
    fetch("anew", b, r, 5, 10, 1999);
    fetch("after its claim", b, r, 5, 10, 2000);
    fetch("of another number", b, r, 1, 11, 0);
    b = attach("of zeros", b, r, 1, 10, 0, 0);
    fetch("of zeros", b, r, 1, 10, 0);
}

/* Who may not is told 27 whatever stands; 27 comes before 28 and 29, and 2 and 3 before 27. */
static void refused_lines(void) {
    Register r = base();
    Book b = counting(holding(holding(no_entries(), 0, 10, 7), 1, 11, 8), 2);
    fetch("by a machine without owner", b, r, 4, 10, 0);
    fetch("of a public one by a machine without owner", b, r, 4, 11, 0);
    fetch("of a public one", b, r, 1, 11, 0);
    fetch("of no entry by who may not", no_entries(), r, 4, 10, 0);
    attach("of a public one", b, r, 3, 11, 0, 9);
    attach("by a machine whose owner lacks WRITE", b, base_and(claim(6, 0, 1, 5, 2)), 5, 10, 0, 9);
    attach("in a full book by who may not", filled(64), r, 3, 10, 0, 9);
    fetch("of number 0", b, r, 1, 0, 0);
    fetch("of an absent one", b, r, 1, 12, 0);
    fetch("of number 65536", b, r, 1, 65536, 0);
    fetch("by actor 0", b, r, 0, 10, 0);
    fetch("by actor 9", b, r, 9, 10, 0);
    fetch("by actor 65536", b, r, 65536, 10, 0);
    fetch("at 2^32 - 1", b, r, 1, 10, GUVRENDIK_MAX_MOMENT);
    fetch("at 2^32", b, r, 1, 10, GUVRENDIK_MAX_MOMENT + 1);
    attach("at 2^32", b, r, 1, 10, GUVRENDIK_MAX_MOMENT + 1, 9);
}

/* Full books, broken ones, and what stands past the count. */
static void book_lines(void) {
    Register r = base(), unsound = with_counts(base(), 65, 2, 5);
    Book twice = counting(holding(holding(no_entries(), 0, 10, 7), 1, 10, 8), 2);
    attach("the 64th", filled(63), r, 1, 10, 0, 9);
    attach("a 65th", filled(64), r, 1, 10, 0, 9);
    attach("over an entry of a full book", holding(filled(64), 63, 10, 7), r, 1, 10, 0, 9);
    attach("over the first of a full book", holding(filled(64), 0, 10, 7), r, 1, 10, 0, 9);
    fetch("of the last of a full book", holding(filled(64), 63, 10, 9), r, 1, 10, 0);
    attach("to 65 entries", filled(65), r, 1, 10, 0, 9);
    attach("to 2^64 - 1 entries", filled(SIZE_MAX), r, 1, 10, 0, 9);
    fetch("of two entries", twice, r, 1, 10, 0);
    fetch("of two entries of another number", counting(holding(holding(no_entries(), 0, 20, 7), 1, 20, 8), 2), r, 1, 10, 0);
    fetch("of two entries by who may not", twice, r, 4, 10, 0);
    fetch("of two entries by actor 65536", twice, r, 65536, 10, 0);
    fetch("of two entries at 2^32", twice, r, 1, 10, GUVRENDIK_MAX_MOMENT + 1);
    fetch("of two entries, the second past the count", counting(twice, 1), r, 1, 10, 0);
    fetch("of an entry past the count", counting(holding(no_entries(), 0, 10, 7), 0), r, 1, 10, 0);
    attach("where entries stand past the count", filled(2), r, 1, 10, 0, 9);
    attach("where its entry stands past the count", counting(holding(filled(2), 5, 10, 7), 2), r, 1, 10, 0, 9);
    fetch("with a register that is not sound", holding(filled(1), 0, 10, 7), unsound, 1, 10, 0);
    attach("with a register that is not sound", filled(1), unsound, 1, 10, 0, 9);
    fetch("of two entries with a register that is not sound", twice, unsound, 1, 10, 0);
    fetch("of a number above 65535 in the book", counting(holding(no_entries(), 0, 65546, 7), 1), r, 1, 10, 0);
    fetch("of a number 512 apart", counting(holding(holding(no_entries(), 0, 522, 7), 1, 10, 8), 2), r, 1, 10, 0);
}

/* The number 10 given to another report: the old fingerprint is handed out. */
static void other_register_line(void) {
    Register r = with_claim(with_resource(with_actor(empty(), 0, human(4)), 0, resource_at(10, 0, 4, "x/y")), 0, claim(1, 0, 4, 4, 1));
    fetch("by another register", counting(holding(no_entries(), 0, 10, 7), 1), r, 4, 10, 0);
}

void book_entries_lines(void) {
    row_lines();
    refused_lines();
    book_lines();
    other_register_line();
}
