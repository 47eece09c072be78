/* Tables of claims that are lent beside a version, actors and resources: a line to a call, 1 where the register with these claims is sound,
 * and a word more where a lent byte changed.
 *
 * What is expected comes from 02, T-11: "yes exactly when the register with these claims is sound. More than 256 records is a no. Nothing lent
 * is changed"; and from 01, "The register", and 02, T-07, as in soundness.c and versions.c. */
#include "calls.h"

enum { MOST = GUVRENDIK_LIMIT_CLAIMS, MORE = MOST + 1 };

static void line(const char *label, const Claim *claims, size_t count, uint64_t version, Register r) {
    static Claim before[MORE];
    if (count > 0) memcpy(before, claims, count * sizeof *claims);
    unsigned sound = guvrendik_sound_table(claims, count, version, r.actors, r.resources).sound;
    int kept = count == 0 || memcmp(before, claims, count * sizeof *claims) == 0;
    printf("table: %s=%u%s\n", label, sound, kept ? "" : " changed");
}

/* The base's own claims, one of them changed or one put behind them. */
static void changed(const char *label, size_t at, Claim c, uint64_t version) {
    Register r = with_claim(base(), at, c);
    line(label, r.claims.list, r.claims.count, version, r);
}

static Claim leaving(uint32_t left, Claim c) {
    c.left = left;
    return c;
}

/* So many roots on report 10, which its keeper grants itself; the last has the id that is given. */
static const Claim *roots(size_t count, uint32_t last) {
    static Claim list[MORE];
    for (size_t i = 0; i < count; i++) list[i] = claim((uint32_t)i + 1, 0, 1, 1, 1);
    list[count - 1].id = last;
    return list;
}

static void lengths(void) {
    Register r = base();
    line("sound no records", NULL, 0, 1, r);
    line("sound no records, of no actors", NULL, 0, 1, empty());
    line("sound no records of version 2", NULL, 0, 2, r);
    line("sound the base's claims", r.claims.list, r.claims.count, 1, r);
    line("sound one record", roots(1, 1), 1, 1, r);
    line("sound 255 records", roots(255, 255), 255, 1, r);
    line("sound 256 records", roots(256, 256), 256, 1, r);
    line("256 records, the last with the first's id", roots(256, 1), 256, 1, r);
    line("257 records, all of them as they should be", roots(257, 257), 257, 1, r);
    line("257 records, the last all zeros", roots(257, 0), 257, 1, r);
    line("sound 256 of these 257", roots(257, 0), 256, 1, r);
    line("sound the register's own claims are not looked at", roots(1, 1), 1, 1, with_claim(r, 0, claim(0, 0, 0, 0, 0)));
}

static void versions(void) {
    Register r = base();
    static Claim two[5];
    for (size_t i = 0; i < 5; i++) two[i] = leaving((const uint32_t[]){4, 3, 1, 0, 16}[i], r.claims.list[i]);
    line("version 0", r.claims.list, 5, 0, r);
    line("version 3", two, 5, 3, r);
    line("version 2^32 + 1 is not 1", r.claims.list, 5, UINT64_C(4294967297), r);
    line("version 2^64 - 1", NULL, 0, UINT64_MAX, r);
    line("sound in version 2", two, 5, 2, r);
    line("(d) in version 2 without lefts", r.claims.list, 5, 2, r);
    two[4].left = 17;
    line("left 17 in version 2", two, 5, 2, r);
    line("sound left 17 in version 1", two, 5, 1, r);
    two[3].left = UINT32_MAX;
    line("sound any left in version 1", two, 5, 1, r);
    line("sound the version is the call's, not the register's", r.claims.list, 5, 1, (r.version = 0, r));
}

static void records(void) {
    changed("id 65,546", 5, claim(65546, 2, 2, 5, 1), 1);
    changed("report 65,546 is not 10", 0, on(65546, claim(1, 0, 1, 1, 131071)), 1);
    changed("holder 65,537 is not 1", 0, claim(1, 0, 1, 65537, 131071), 1);
    changed("weight 2^32 - 1", 0, weighing(UINT32_MAX, claim(1, 0, 1, 1, 131071)), 1);
    changed("expiry 2^32", 5, expiring(UINT64_C(4294967296), claim(6, 2, 2, 5, 1)), 1);
    changed("expiry 2^64 - 1", 5, expiring(UINT64_MAX, claim(6, 2, 2, 5, 1)), 1);
    changed("sound expiry 2^32 - 1", 5, expiring(UINT64_C(4294967295), claim(6, 2, 2, 5, 1)), 1);
    changed("id doubled", 5, claim(3, 2, 2, 5, 1), 1);
    changed("(a) root by another than the keeper", 5, claim(6, 0, 3, 5, 1), 1);
    changed("(b) parent stands later", 0, claim(1, 2, 1, 1, 131071), 1);
    changed("(b) parent absent", 5, claim(6, 99, 2, 5, 1), 1);
    changed("(c) POLICY_MODIFY by a machine", 5, claim(6, 2, 2, 5, 65536), 1);
    changed("(e) holder holds the parent", 5, claim(6, 2, 2, 2, 1), 1);
    Register r = tower(18);
    line("sound 16 hops", r.claims.list, 17, 1, r);
    line("(d) 17 hops", r.claims.list, 18, 1, r);
}

static void beside(void) {
    Register r = base();
    const Claim *one = roots(1, 1);
    line("65 actors", one, 1, 1, with_counts(r, 65, 2, 5));
    line("65 resources", one, 1, 1, with_counts(r, 5, 65, 5));
    line("a count of 2^64 - 1", one, 1, 1, with_counts(r, 5, UINT64_MAX, 5));
    line("actor id doubled", one, 1, 1, with_actor(r, 5, human(1)));
    line("keeper a machine", NULL, 0, 1, with_resource(r, 2, resource(12, 0, 2)));
    line("sound a count of claims above the limit is not looked at", one, 1, 1, with_counts(r, 5, 2, 300));
    line("records of no actors", one, 1, 1, empty());
}

void table_lines(void) {
    lengths();
    versions();
    records();
    beside();
}
