/* Registers, sound and not: a line to a register, 1 where it is sound. `base` is sound; the other registers are `base`, or a small one of
 * their own, with one thing changed, and the line's name says which rule of 01 that breaks, or keeps.
 *
 * What is expected comes from 01, "The register": a line that begins `sound` is 1, since no rule speaks against it; every other line is 0,
 * by the rule that it names. A grantor who is no actor cannot be had by itself: (a) or (b) breaks with it, so no line names that. */
#include "calls.h"

static void line(const char *label, Register r) {
    printf("%s=%u\n", label, (unsigned)guvrendik_sound(r).sound);
}

/* Past each count stands what no rule would let stand below it. */
static Register garbage(void) {
    guvrendik_actor bad = {.id = 1, .kind = 9, .owner = 70000};
    Register r = with_actor(with_actor(base(), 63, bad), 5, bad);
    r = with_resource(r, 2, resource(10, 7, 0));
    r = with_claim(r, 5, claim(1, 255, 0, 0, 0));
    r = with_claim(r, 255, claim(1, 1, 0, 0, 0));
    return with_counts(r, 5, 2, 5);
}

/* The base with a third resource, whose path has the given length and the given byte at its sixth place. */
static Register path_of(uint32_t len, uint8_t byte) {
    guvrendik_resource o = resource(12, 0, 1);
    o.path[5] = byte;
    o.len = len;
    return with_resource(base(), 2, o);
}

static void sound(void) {
    line("sound empty", empty());
    line("sound base", base());
    line("sound root granted to its own grantor", with_counts(base(), 5, 2, 1));
    line("sound two claims drawn from one parent", base_and(claim(6, 2, 2, 5, 1)));
    Register there = with_claim(with_counts(base(), 5, 2, 0), 0, claim(1, 0, 1, 3, 17));
    line("sound circle over two resources", with_claim(there, 1, on(11, claim(2, 0, 3, 1, 17))));
    line("sound weight 0", with_claim(base(), 3, weighing(0, claim(4, 3, 3, 5, 1))));
    line("sound garbage past the counts", garbage());
    line("sound empty path", path_of(0, 97));
}

static void limits(void) {
    line("65 actors", with_counts(base(), 65, 2, 5));
    line("65 resources", with_counts(base(), 5, 65, 5));
    line("257 claims", with_counts(base(), 5, 2, 257));
    line("a count of 2^64 - 1", with_counts(base(), UINT64_MAX, 2, 5));
}

static void actors(void) {
    line("actor id 0", with_actor(base(), 5, human(0)));
    line("actor id 65536", with_actor(base(), 5, human(65536)));
    line("sound actor id 65535", with_actor(base(), 5, human(65535)));
    line("kind 0", with_actor(base(), 5, (guvrendik_actor){.id = 6, .kind = 0}));
    line("kind 3", with_actor(base(), 5, (guvrendik_actor){.id = 6, .kind = 3}));
    line("actor id doubled", with_actor(base(), 5, human(1)));
    line("owner 65537", with_actor(base(), 5, machine(6, 65537)));
    line("owner absent", with_actor(base(), 5, machine(6, 9)));
    line("owner a machine", with_actor(base(), 5, machine(6, 2)));
    line("human with an owner", with_actor(base(), 5, (guvrendik_actor){.id = 6, .kind = GUVRENDIK_ACTOR_HUMAN, .owner = 1}));
    line("sound owner who stands later", with_actor(with_actor(base(), 5, machine(6, 7)), 6, human(7)));
}

static void resources(void) {
    line("resource id 0", with_resource(base(), 2, resource(0, 0, 1)));
    line("resource id 65536", with_resource(base(), 2, resource(65536, 0, 1)));
    line("public 2", with_resource(base(), 2, resource(12, 2, 1)));
    line("keeper 0", with_resource(base(), 2, resource(12, 0, 0)));
    line("keeper absent", with_resource(base(), 2, resource(12, 0, 9)));
    line("keeper a machine", with_resource(base(), 2, resource(12, 0, 2)));
    line("resource id doubled", with_resource(base(), 2, resource(10, 0, 1)));
    line("sound second resource on one path", with_resource(base(), 2, resource(12, 0, 1)));
    line("path of 65 bytes", path_of(65, 97));
    line("path byte 0x00 within", path_of(7, 97));
    line("path byte 0x20", path_of(6, 0x20));
    line("path byte 0x7F", path_of(6, 0x7F));
    line("sound path byte 0x21", path_of(6, 0x21));
    line("sound path byte 0x7E", path_of(6, 0x7E));
    line("sound byte 0x20 past the path", path_of(5, 0x20));
}

static void ranges(void) {
    line("claim id 0", base_and(claim(0, 2, 2, 5, 1)));
    line("claim id 65536", base_and(claim(65536, 2, 2, 5, 1)));
    line("claim id doubled", base_and(claim(3, 2, 2, 5, 1)));
    line("parent 65538", base_and(claim(6, 65538, 2, 5, 1)));
    line("rights 0", base_and(claim(6, 2, 2, 5, 0)));
    line("rights 131072", base_and(claim(6, 0, 1, 5, 131072)));
    line("weight 1001", with_claim(base(), 0, weighing(1001, claim(1, 0, 1, 1, 131071))));
    line("expiry 2^32", base_and(expiring(UINT64_C(4294967296), claim(6, 2, 2, 5, 1))));
    line("sound expiry 2^32 - 1", base_and(expiring(UINT64_C(4294967295), claim(6, 2, 2, 5, 1))));
}

static void names_and_roots(void) {
    line("holder absent", base_and(claim(6, 2, 2, 9, 1)));
    line("resource absent", base_and(on(12, claim(6, 0, 1, 5, 1))));
    line("(a) root by another than the keeper", base_and(claim(6, 0, 3, 5, 1)));
    line("(a) root by the keeper of another resource", base_and(on(11, claim(6, 0, 1, 5, 1))));
}

static void parents(void) {
    line("(b) parent absent", base_and(claim(6, 99, 2, 5, 1)));
    line("(b) parent stands later", with_claim(base_and(claim(6, 7, 1, 5, 1)), 6, claim(7, 0, 1, 1, 17)));
    line("(b) parent held by another", base_and(claim(6, 2, 1, 5, 1)));
    line("(b) parent on another resource", base_and(claim(6, 5, 2, 5, 1)));
    line("(b) parent without DELEGATE", base_and(weighing(600, claim(6, 4, 5, 4, 1))));
    line("(b) a right the parent lacks", base_and(weighing(600, claim(6, 3, 3, 5, 3))));
    /* Human 3 holds READ and DELEGATE by one claim, WRITE and DELEGATE by another, and grants READ and WRITE from the first. */
    Register two = base_and(weighing(600, claim(6, 2, 2, 3, 18)));
    line("(b) rights of two claims joined", with_claim(two, 6, weighing(600, claim(7, 3, 3, 5, 3))));
    line("(b) weight above the parent's", base_and(weighing(601, claim(6, 3, 3, 5, 1))));
    line("sound weight of the parent", base_and(weighing(600, claim(6, 3, 3, 5, 1))));
}

static void machines(void) {
    Register unowned = base_and(claim(6, 2, 2, 4, 17));
    line("sound claim of a machine without owner", unowned);
    line("(c) grant by a machine without owner", with_claim(unowned, 6, claim(7, 6, 4, 5, 1)));
    line("(c) AUDIT_WRITE by a machine", base_and(claim(6, 2, 2, 5, 8192)));
    line("(c) REGISTRY_MODIFY by a machine", base_and(claim(6, 2, 2, 5, 32768)));
    line("(c) POLICY_MODIFY by a machine", base_and(claim(6, 2, 2, 5, 65536)));
    line("sound all other rights by a machine", base_and(claim(6, 2, 2, 5, 24575)));
    line("sound AUDIT_WRITE by a human", base_and(claim(6, 1, 1, 5, 8192)));
}

static void hops_and_circles(void) {
    line("sound 16 hops", tower(17));
    line("(d) 17 hops", tower(18));
    line("(e) holder holds the parent", base_and(claim(6, 2, 2, 2, 1)));
    line("(e) holder holds a claim higher up", base_and(weighing(600, claim(6, 3, 3, 2, 1))));
    line("(e) holder is the root's grantor", base_and(on(11, claim(6, 5, 2, 3, 1))));
    line("(e) holder granted and holds the root", base_and(weighing(600, claim(6, 3, 3, 1, 1))));
    line("sound holder holds a claim beside the chain", base_and(on(11, claim(6, 5, 2, 5, 1))));
    line("(b) claim that is its own parent", base_and(claim(6, 6, 1, 1, 17)));
    line("(b) two claims that are each other's parents", with_claim(base_and(claim(6, 7, 1, 3, 17)), 6, claim(7, 6, 3, 1, 17)));
}

void soundness_lines(void) {
    sound();
    limits();
    actors();
    resources();
    ranges();
    names_and_roots();
    parents();
    machines();
    hops_and_circles();
}
