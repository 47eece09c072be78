/* Guvrendik: a proved authority gate, in C99 or C++98 and later. `./install PREFIX` puts libguvrendik.a and libguvrendik.so.3, this header and
 * guvrendik.pc in place; `pkg-config --cflags --libs guvrendik` says how to build with them.
 *
 * No call allocates, keeps a pointer, writes a global or touches errno: any number of threads may call at once, also on the same
 * register. Structs pass by value; a register is 16,160 bytes. Each call has a twin that takes and answers its structs by pointer, for
 * languages that cannot pass them by value: guvrendik_gate_at of guvrendik_gate, and so on, all at the end of this header. No struct has
 * bytes between or behind its fields, so an answer holds nothing but the answer. What a call lends with a pointer and a length belongs
 * to the caller, is used during the call only, and may be NULL where the length is 0.
 *
 * Every input is answered: a number out of range, a count above its limit and a register that is not sound are refused, by the
 * numbers below. Entries past a count are ignored, and so are the bytes of a path past its length. An answer is determined whole,
 * also past its counts. An answer that was never written, all zeros, reads as a no.
 *
 * Stack: each call says how many bytes of stack it needs, the caller's copies of the structs included: the most that was measured
 * over registers from small to full, rounded up. The test command measures it again and fails where a call takes more. A twin needs no
 * more than its call: the copies are its own. A program that looks a call up at its first use (lazy binding) needs some 1,000 bytes more
 * then.
 *
 * Proved, of every call: it equals a definition in the rule book's words, for all inputs (docs/CONTRACTS.md names each one); it
 * never reads or writes out of range, overflows or runs on for ever. Not proved: that the caller's pointers and lengths are good,
 * how C and the library pass structs to each other, and the twins, each one line of C around its call (native/calls.c); the last two are
 * tested.
 *
 * A moment is a number of seconds. Which second is 0 the portal chooses, the same one in every call and every text; no call reads a clock.
 * Seconds of the Unix clock fit until the year 2106. Milliseconds do not fit: a call refuses such a moment with 2, a reading of a
 * register's or an action's text with 19.
 *
 * Each family of numbers has its own prefix, and no name of one family goes into the field of another:
 *  LIMIT_ how many at most, TEXT_ bytes of the longest text, MAX_ the largest number of a field, SIZE_ bytes of a struct
 *  REGISTER_ a register's version, ACTOR_ an actor's kind, DECISION_ of a verdict and of a judgement
 *  RIGHT_ the number of one right: of a use, and of a JSON action's kind
 *  CAN_ the part of one right in the sum that a claim's rights are: c.rights = GUVRENDIK_CAN_READ | GUVRENDIK_CAN_DELEGATE
 *  SETS_ the part of one flag in the sum that an action's flags are: a.flags |= GUVRENDIK_SETS_COERCES
 *  REFUSAL_ why a call refuses, VIOLATION_ the kind of a violation
 *  PROPOSES_ the kind of a proposal, CHECK_ what the check of one answers, LIST_ a list of a register as a fault names it
 *  REMARK_ what is said of a claim in a cover table, CELL_ what a cell of it holds besides the place of a claim, REASON_ the kind of a reason
 *
 * What your portal must do (docs/PORTAL.md says why and how):
 *  - Serialise changes. A grant or revocation answers a new register: one that was computed on an old copy and stored after
 *    another change undoes that change, and brings a revoked claim back. Hold one lock from reading the register to storing it.
 *  - Give the moment, the actor, the grantor, the revoker and the flags itself, never from what a visitor sent: the gate believes them.
 *  - Keep and compare registers by their text (guvrendik_write_register), not by the struct's bytes.
 *  - Mind outer paths: who holds a claim on an outer or empty path may use what other keepers have inside it.
 *  - Give each thread the stack that its calls need, and its own copies of the structs beside it.
 *  - Tell a visitor no more than the gate's verdict: an absent report and one that is not held look alike there, and not in a
 *    grant. */
#ifndef GUVRENDIK_H
#define GUVRENDIK_H

#include <stddef.h>
#include <stdint.h>

#ifdef __cplusplus
extern "C" {
#endif

/* The version of this header. guvrendik_version answers that of the library; the shared object is named by the first number. That one
 * changes where a caller must be changed or compiled anew, the second where a call is new. */
#define GUVRENDIK_VERSION_MAJOR 3
#define GUVRENDIK_VERSION_MINOR 5
#define GUVRENDIK_VERSION_PATCH 0

/* How many at most. */
#define GUVRENDIK_LIMIT_ACTORS 64
#define GUVRENDIK_LIMIT_RESOURCES 64
#define GUVRENDIK_LIMIT_CLAIMS 256
#define GUVRENDIK_LIMIT_HOPS 16 /* steps from a claim up to its root */
#define GUVRENDIK_LIMIT_CHAIN 17 /* claims from one up to its root, at most: 16 hops and one */
#define GUVRENDIK_LIMIT_PATH 64 /* bytes of a path */
#define GUVRENDIK_LIMIT_USES 32
#define GUVRENDIK_LIMIT_GOVERNS 8
#define GUVRENDIK_LIMIT_ACTIONS 16
#define GUVRENDIK_LIMIT_SIGNERS 8       /* willing to sign a proposed grant */
#define GUVRENDIK_LIMIT_LEVELS 8        /* plans in each other in a plan's text, the outermost counted */
#define GUVRENDIK_LIMIT_STEPS 64        /* steps of one plan in a plan's text */
#define GUVRENDIK_LIMIT_TEXT_ACTIONS 64 /* actions of a plan's text, in all its plans together */
#define GUVRENDIK_LIMIT_VIOLATIONS 51
#define GUVRENDIK_LIMIT_ENTRIES 64      /* of a fingerprint book */
#define GUVRENDIK_LIMIT_FINGERPRINT 32  /* bytes of a fingerprint: as many as it has */
#define GUVRENDIK_LIMIT_CELLS 1088      /* of a cover table: 17 rights of each of 64 resources */
#define GUVRENDIK_LIMIT_JSON_ID 64 /* bytes of a JSON action's id */
#define GUVRENDIK_LIMIT_RIGHTS 17  /* a right's number is below it */
#define GUVRENDIK_LIMIT_FLAGS 10   /* a flag's number is below it */

/* The bytes of the longest text of its kind. */
#define GUVRENDIK_TEXT_REGISTER 39789 /* of version 1 none is longer than 37,741 */
#define GUVRENDIK_TEXT_VERDICT 1103   /* by guvrendik_verdict_text and guvrendik_json_verdict_text */
#define GUVRENDIK_TEXT_PLAN_VERDICT 1944
#define GUVRENDIK_TEXT_JSON 807  /* an action that is written as JSON */
#define GUVRENDIK_TEXT_WORDS 128 /* the words for a number */

/* The largest numbers of the fields. */
#define GUVRENDIK_MAX_ID 65535
#define GUVRENDIK_MAX_RIGHTS 131071 /* all seventeen */
#define GUVRENDIK_MAX_WEIGHT 1000
#define GUVRENDIK_MAX_LEFT 16
#define GUVRENDIK_MAX_MOMENT 4294967295
#define GUVRENDIK_MAX_FLAGS 1023 /* all ten */

/* Versions of a register. In version 1 a claim has at most 16 hops. In version 2 each claim says how many more hands it may pass through,
 * its left, and one with a parent says less than its parent. Any other version is not sound. */
#define GUVRENDIK_REGISTER_1 1
#define GUVRENDIK_REGISTER_2 2

/* Kinds of actor. */
#define GUVRENDIK_ACTOR_HUMAN 1
#define GUVRENDIK_ACTOR_MACHINE 2

/* The seventeen rights by number: of a use, and of a JSON action's kind. guvrendik_right_name has their names. */
typedef enum guvrendik_right {
    GUVRENDIK_RIGHT_READ = 0,
    GUVRENDIK_RIGHT_WRITE = 1,
    GUVRENDIK_RIGHT_EXECUTE = 2,
    GUVRENDIK_RIGHT_DELETE = 3,
    GUVRENDIK_RIGHT_DELEGATE = 4,
    GUVRENDIK_RIGHT_NETWORK_EGRESS = 5,
    GUVRENDIK_RIGHT_NETWORK_INGRESS = 6,
    GUVRENDIK_RIGHT_FILE_SYSTEM = 7,
    GUVRENDIK_RIGHT_PROCESS_SPAWN = 8,
    GUVRENDIK_RIGHT_MEMORY_WRITE = 9,
    GUVRENDIK_RIGHT_CREDENTIAL_READ = 10,
    GUVRENDIK_RIGHT_CREDENTIAL_WRITE = 11,
    GUVRENDIK_RIGHT_AUDIT_READ = 12,
    GUVRENDIK_RIGHT_AUDIT_WRITE = 13,
    GUVRENDIK_RIGHT_POLICY_READ = 14,
    GUVRENDIK_RIGHT_REGISTRY_MODIFY = 15,
    GUVRENDIK_RIGHT_POLICY_MODIFY = 16
} guvrendik_right;

/* The same as parts of a claim's rights: right b has the part 2^b, and the rights are the sum of the parts. */
#define GUVRENDIK_CAN_READ 1
#define GUVRENDIK_CAN_WRITE 2
#define GUVRENDIK_CAN_EXECUTE 4
#define GUVRENDIK_CAN_DELETE 8
#define GUVRENDIK_CAN_DELEGATE 16
#define GUVRENDIK_CAN_NETWORK_EGRESS 32
#define GUVRENDIK_CAN_NETWORK_INGRESS 64
#define GUVRENDIK_CAN_FILE_SYSTEM 128
#define GUVRENDIK_CAN_PROCESS_SPAWN 256
#define GUVRENDIK_CAN_MEMORY_WRITE 512
#define GUVRENDIK_CAN_CREDENTIAL_READ 1024
#define GUVRENDIK_CAN_CREDENTIAL_WRITE 2048
#define GUVRENDIK_CAN_AUDIT_READ 4096
#define GUVRENDIK_CAN_AUDIT_WRITE 8192 /* not granted by a machine */
#define GUVRENDIK_CAN_POLICY_READ 16384
#define GUVRENDIK_CAN_REGISTRY_MODIFY 32768 /* not granted by a machine */
#define GUVRENDIK_CAN_POLICY_MODIFY 65536   /* not granted by a machine */

/* The ten flags as parts of an action's flags: flag i has the part 2^i, and the flags are the sum of the parts. Only a violation's value
 * is a flag's number: guvrendik_flag_part answers its part, guvrendik_flag_name its name. */
#define GUVRENDIK_SETS_INCREASES_SOVEREIGNTY 1
#define GUVRENDIK_SETS_RESISTS_CORRECTION 2
#define GUVRENDIK_SETS_BYPASSES_VERIFIER 4
#define GUVRENDIK_SETS_WEAKENS_VERIFIER 8
#define GUVRENDIK_SETS_DISABLES_CORRIGIBILITY 16
#define GUVRENDIK_SETS_COALITION_DOMINION 32
#define GUVRENDIK_SETS_COERCES 64
#define GUVRENDIK_SETS_DECEIVES 128
#define GUVRENDIK_SETS_SELF_MODIFICATION 256
#define GUVRENDIK_SETS_COALITION_REDUCES_FREEDOM 512

/* The numbers that a call refuses with. guvrendik_refusal_text has words for them. */
#define GUVRENDIK_REFUSAL_UNSOUND 1           /* register not sound */
#define GUVRENDIK_REFUSAL_RANGE 2             /* field or count of the call out of range */
#define GUVRENDIK_REFUSAL_ABSENT 3            /* grantor, holder, resource, revoker, caller or acting actor not in the register */
#define GUVRENDIK_REFUSAL_STANDS 4            /* claim id already stands */
#define GUVRENDIK_REFUSAL_FULL 5              /* 256 claims stand */
#define GUVRENDIK_REFUSAL_NOT_KEEPER 6        /* root grant by anyone but the keeper */
#define GUVRENDIK_REFUSAL_OWNERLESS 7         /* grantor is a machine without owner */
#define GUVRENDIK_REFUSAL_NOT_BY_MACHINE 8    /* grantor is a machine and right 13, 15 or 16 is asked */
#define GUVRENDIK_REFUSAL_NO_PARENT 9         /* parent does not stand */
#define GUVRENDIK_REFUSAL_NOT_HELD 10         /* parent not held by the grantor, or on another resource */
#define GUVRENDIK_REFUSAL_NOT_LIVE 11         /* parent, or a claim above it, not live at the moment */
#define GUVRENDIK_REFUSAL_NO_DELEGATE 12      /* parent lacks DELEGATE */
#define GUVRENDIK_REFUSAL_RIGHT_LACKING 13    /* a right the parent lacks */
#define GUVRENDIK_REFUSAL_WEIGHT_ABOVE 14     /* weight above the parent's */
#define GUVRENDIK_REFUSAL_TOO_MANY_HOPS 15    /* more than 16 hops, or left not below the parent's */
#define GUVRENDIK_REFUSAL_CIRCLE 16           /* circle: the holder holds a claim higher on the chain, or granted its root */
#define GUVRENDIK_REFUSAL_NO_CLAIM 17         /* claim to revoke does not stand */
#define GUVRENDIK_REFUSAL_NO_GRANTOR 18       /* revoker is no grantor on that claim's chain, or caller is not the keeper or not human */
#define GUVRENDIK_REFUSAL_FORM 19             /* text not of the form */
#define GUVRENDIK_REFUSAL_COUNT 20            /* a count line above its limit */
#define GUVRENDIK_REFUSAL_BUFFER 21           /* buffer too short for the text */
#define GUVRENDIK_REFUSAL_TOO_DEEP 22         /* plan deeper than 8 levels */
#define GUVRENDIK_REFUSAL_TOO_MANY_ACTIONS 23 /* more than 64 actions in a plan text */
#define GUVRENDIK_REFUSAL_JSON_FORM 24        /* JSON action of another form, with a number out of range or with more than 32 uses */
#define GUVRENDIK_REFUSAL_JSON_LACKS 25       /* a right above 2 or a governed entry, for which a JSON action has no place */
#define GUVRENDIK_REFUSAL_NO_PROPOSAL 26      /* no single grant by one of the signers would permit the use */
#define GUVRENDIK_REFUSAL_NOT_PERMITTED 27    /* action not permitted */
#define GUVRENDIK_REFUSAL_NO_ENTRY 28         /* no fingerprint is attached to the resource's number */
#define GUVRENDIK_REFUSAL_BOOK_FULL 29        /* 64 entries stand, and none of the resource's number */
#define GUVRENDIK_REFUSAL_BAD_BOOK 30         /* book with more than 64 entries or with two for one number */
#define GUVRENDIK_REFUSAL_DOUBLED 31          /* an earlier record of the list has the id */
#define GUVRENDIK_REFUSAL_BAD_OWNER 32        /* owner of a human, or owner who is no human of the register */
#define GUVRENDIK_REFUSAL_BAD_KEEPER 33       /* keeper who is no human of the register */

/* ---- The register ---- */

typedef struct guvrendik_actor {
    uint32_t id;    /* 1 to 65,535, distinct among the actors */
    uint32_t kind;  /* GUVRENDIK_ACTOR_HUMAN or GUVRENDIK_ACTOR_MACHINE */
    uint32_t owner; /* of a machine: a human of the register, or 0 for none. Of a human: 0 */
} guvrendik_actor;

typedef struct guvrendik_resource {
    uint32_t id;        /* 1 to 65,535, distinct among the resources */
    uint32_t is_public; /* 1 public, 0 not */
    uint32_t keeper;    /* a human of the register */
    uint32_t len;       /* bytes of the path, 0 to 64 */
    uint8_t path[GUVRENDIK_LIMIT_PATH]; /* each 0x21 to 0x7E */
} guvrendik_resource;

/* A claim is live at a moment when every claim on its chain, the claim itself, its parent and so on up to the root, has weight above 0 and
 * expiry 0 or above the moment: it does not outlive what it is drawn from. */
typedef struct guvrendik_claim {
    uint32_t id;       /* 1 to 65,535, distinct among the claims */
    uint32_t parent;   /* the id of a claim earlier in the list, or 0 for a root */
    uint32_t grantor;  /* an actor: of a root the resource's keeper, else the parent's holder */
    uint32_t holder;   /* an actor */
    uint32_t resource; /* a resource: the parent's, where there is one */
    uint32_t rights;   /* 1 to 131,071, a sum of parts GUVRENDIK_CAN_READ .., and no right's number; none that the parent lacks */
    uint32_t weight;   /* 0 to 1,000; at most the parent's */
    uint32_t left;     /* version 2: 0 to 16; below the parent's, where there is one. Version 1: not asked, any number; 16 less the hop count
                        * in claims that a grant or a reading made */
    uint64_t expiry;   /* a moment in seconds, below 2^32; 0 for never */
} guvrendik_claim;

/* A claim, each field by its place in the struct, which is that of its line in a register's text: none is left out and none is guessed.
 * Part of this header and not of the library, as every function that is static inline: tested, not proved. */
static inline guvrendik_claim guvrendik_make_claim(uint32_t id, uint32_t parent, uint32_t grantor, uint32_t holder, uint32_t resource,
                                                   uint32_t rights, uint32_t weight, uint32_t left, uint64_t expiry) {
    guvrendik_claim c;
    c.id = id;
    c.parent = parent;
    c.grantor = grantor;
    c.holder = holder;
    c.resource = resource;
    c.rights = rights;
    c.weight = weight;
    c.left = left;
    c.expiry = expiry;
    return c;
}

/* The part of a right's number in a claim's rights: GUVRENDIK_CAN_READ of GUVRENDIK_RIGHT_READ. 0 of a number that is no right's. */
static inline uint32_t guvrendik_right_part(uint32_t right) {
    return right < GUVRENDIK_LIMIT_RIGHTS ? (uint32_t)1 << right : 0;
}

typedef struct guvrendik_actors {
    guvrendik_actor list[GUVRENDIK_LIMIT_ACTORS];
    size_t count; /* 0 to 64 */
} guvrendik_actors;

typedef struct guvrendik_resources {
    guvrendik_resource list[GUVRENDIK_LIMIT_RESOURCES];
    size_t count; /* 0 to 64 */
} guvrendik_resources;

typedef struct guvrendik_claims {
    guvrendik_claim list[GUVRENDIK_LIMIT_CLAIMS];
    size_t count; /* 0 to 256 */
} guvrendik_claims;

/* The register. All zeros, never begun, has version 0 and is not sound. */
typedef struct guvrendik_register {
    guvrendik_actors actors;
    guvrendik_resources resources;
    guvrendik_claims claims;
    uint64_t version; /* GUVRENDIK_REGISTER_1 or GUVRENDIK_REGISTER_2. No call changes it */
} guvrendik_register;

/* Makes *r the empty register of this version: all zeros but for the version. With 1 or 2 it is sound. */
static inline void guvrendik_begin(guvrendik_register *r, uint64_t version) {
    uint8_t *bytes = (uint8_t *)r;
    size_t i;
    for (i = 0; i < sizeof *r; i++) bytes[i] = 0;
    r->version = version;
}

/* The three functions below put an entry at the end of its list in a register that is being built, and answer 1; or 0, and change
 * nothing, where the list is full or the path is longer than 64 bytes. They judge nothing else: guvrendik_sound does. */
static inline int guvrendik_put_actor(guvrendik_register *r, uint32_t id, uint32_t kind, uint32_t owner) {
    guvrendik_actor *a;
    if (r->actors.count >= GUVRENDIK_LIMIT_ACTORS) return 0;
    a = &r->actors.list[r->actors.count++];
    a->id = id;
    a->kind = kind;
    a->owner = owner;
    return 1;
}

/* path/path_len: the bytes of the path, read during the call only. May be NULL where path_len is 0. */
static inline int guvrendik_put_resource(guvrendik_register *r, uint32_t id, uint32_t is_public, uint32_t keeper,
                                         const void *path, size_t path_len) {
    const uint8_t *bytes = (const uint8_t *)path;
    guvrendik_resource *o;
    size_t i;
    if (r->resources.count >= GUVRENDIK_LIMIT_RESOURCES || path_len > GUVRENDIK_LIMIT_PATH) return 0;
    o = &r->resources.list[r->resources.count++];
    o->id = id;
    o->is_public = is_public;
    o->keeper = keeper;
    o->len = (uint32_t)path_len;
    for (i = 0; i < GUVRENDIK_LIMIT_PATH; i++) o->path[i] = (uint8_t)(i < path_len ? bytes[i] : 0);
    return 1;
}

/* To a register in use, claims come by guvrendik_grant alone. */
static inline int guvrendik_put_claim(guvrendik_register *r, guvrendik_claim c) {
    if (r->claims.count >= GUVRENDIK_LIMIT_CLAIMS) return 0;
    r->claims.list[r->claims.count++] = c;
    return 1;
}

/* The answer of guvrendik_sound and guvrendik_sound_table. */
typedef struct guvrendik_soundness {
    uint32_t sound; /* 1: sound. 0: not. No other number. */
} guvrendik_soundness;

/* Whether the register is sound: the limits, ranges and field rules above hold; every actor and resource that a claim names
 * stands; a parent has DELEGATE; a machine grants only where it has an owner, and never right 13, 15 or 16; in version 1 no claim
 * has more than 16 hops, in version 2 a claim with a parent has a left below its parent's; the holder of a claim with a parent holds
 * no claim higher on the chain and did not grant its root.
 * No refusal: every register is answered.
 * Stack: 46,000 bytes. */
guvrendik_soundness guvrendik_sound(guvrendik_register r);

/* Whether the register of this version, these actors and resources and the claims of a table of the caller's own is sound, as
 * guvrendik_sound judges it: 1 or 0. The table is judged where it lies; no record of it is kept or copied as a record.
 *  claims/claims_len  the records, in the order of a register's list, read during the call only: they may stand in memory that cannot be
 *                     written, and threads may lend one table at once. Any content; may be NULL where claims_len is 0. No records are the
 *                     register without claims; more than 256 are a no, and none of them is looked at.
 *  version            GUVRENDIK_REGISTER_1 or GUVRENDIK_REGISTER_2; any other is a no.
 * No refusal: every table is answered.
 * Stack: 31,000 bytes. */
guvrendik_soundness guvrendik_sound_table(const guvrendik_claim *claims, size_t claims_len, uint64_t version,
                                          guvrendik_actors actors, guvrendik_resources resources);

/* ---- The register lent ----
 * Three calls also take the register as the bytes of its struct, where it lies: guvrendik_sound_lent, guvrendik_gate_lent and
 * guvrendik_judge_plan_lent. It is not copied whole, and nothing lent is written.
 *  bytes/bytes_len  a guvrendik_register and its size, read during the call only, byte by byte: it may stand anywhere, aligned or not, in
 *                   memory that cannot be written, and threads may lend one register at once while nobody writes it. Any bytes; may be
 *                   NULL where bytes_len is 0. Any other length than GUVRENDIK_SIZE_REGISTER is a register that is not sound.
 * The bytes of a number are taken with the least first, as a little-endian processor keeps them. On a big-endian one the three would read
 * other numbers: define GUVRENDIK_WITHOUT_LENT there, and these three are not declared. */
#if defined(__BYTE_ORDER__) && defined(__ORDER_BIG_ENDIAN__) && !defined(GUVRENDIK_WITHOUT_LENT)
#if __BYTE_ORDER__ == __ORDER_BIG_ENDIAN__
#error "a register is lent as little-endian bytes: define GUVRENDIK_WITHOUT_LENT to do without the three calls that take one"
#endif
#endif

#ifndef GUVRENDIK_WITHOUT_LENT
/* Whether the register that lent bytes hold is sound, as guvrendik_sound judges it.
 * No refusal: all bytes are answered.
 * Stack: 30,000 bytes. */
guvrendik_soundness guvrendik_sound_lent(const uint8_t *bytes, size_t bytes_len);
#endif

/* ---- Changes ---- */

/* The answer of guvrendik_grant. */
typedef struct guvrendik_granted {
    guvrendik_register state; /* accepted: the register with the claim at the end of the list. Refused: as it came, whole */
    uint32_t accepted;        /* 1 or 0 */
    uint32_t refusal;         /* 0 where accepted, else the number */
} guvrendik_granted;

/* Grants the claim c at the moment.
 *  r       the register before
 *  c       the claim, every field in the range that guvrendik_claim gives; its left is not asked where the register has version 1
 *  moment  in seconds, 0 to GUVRENDIK_MAX_MOMENT
 * Refusals, the first that applies: 1 register not sound; 2 a field of the claim or the moment out of range; 3 grantor, holder
 * or resource not in the register; 4 the id stands; 5 256 claims stand; 6 a root not granted by the keeper; 7 and 8 what a machine
 * may not grant; and where there is a parent: 9 it does not stand; 10 it is not held by the grantor or is on another resource;
 * 11 it is not live then: it or a claim higher on its chain has expired or has weight 0; 12 it lacks DELEGATE; 13 it lacks a
 * right; 14 it has less weight; 15 more than 16 hops, in version 2 a left not below its own; 16 a circle.
 * Refused for no other cause: a claim of weight 0, whose expiry has passed or is later than its parent's, is granted.
 * Accepted, everything but the new claim and the count of claims is as it came, also what stands past the counts. The new claim is c; in
 * version 1 its left is 16 less its hop count.
 * Stack: 80,000 bytes. */
guvrendik_granted guvrendik_grant(guvrendik_register r, guvrendik_claim c, uint64_t moment);

/* The answer of guvrendik_revoke, guvrendik_clear_resource and guvrendik_clear_expired. */
typedef struct guvrendik_revoked {
    guvrendik_register state; /* accepted: the register without the claims. Refused: as it came, whole */
    uint32_t accepted;        /* 1 or 0 */
    uint32_t refusal;         /* 0 where accepted, else the number */
    size_t removed;           /* how many claims went, at least 1 of a revocation; 0 where refused */
} guvrendik_revoked;

/* Revokes a claim: it goes, and every claim that has it on its chain. The rest keep their order.
 *  r        the register before
 *  revoker  the id of an actor; a number out of range is in no register
 *  claim    the id of a claim; a number out of range does not stand
 * Refusals, the first that applies: 1 register not sound; 3 revoker not in the register; 17 the claim does not stand; 18 the
 * revoker granted neither it nor a claim higher on its chain.
 * Accepted, every place past the count of claims holds a claim of all zeros: nothing of a withdrawn claim is left.
 * Any two of this call and the two below leave the same register in either order, but a revocation that comes second may be told 17: the
 * first took its claim.
 * Stack: 74,000 bytes. */
guvrendik_revoked guvrendik_revoke(guvrendik_register r, uint32_t revoker, uint32_t claim);

/* Clears a resource: every claim on it goes, of whatever weight and expiry. The rest keep their order.
 *  r         the register before
 *  caller    the id of the resource's keeper; a number out of range is in no register
 *  resource  the id of a resource; a number out of range is in no register
 * Refusals, the first that applies: 1 register not sound; 3 caller not in the register; 3 resource not in the register; 18 the caller
 * is not its keeper, though it may be the keeper's machine or the keeper of another resource.
 * Where no claim is on it, the call is accepted and none goes. Accepted, every place past the count of claims holds a claim of all
 * zeros.
 * Stack: 74,000 bytes. */
guvrendik_revoked guvrendik_clear_resource(guvrendik_register r, uint32_t caller, uint32_t resource);

/* Clears old claims: every claim goes that has expired at the moment, its expiry not 0 and not above it, and every claim that has such a
 * one on its chain. The rest keep their order, those of weight 0 too.
 *  r       the register before
 *  caller  the id of a human; a number out of range is in no register
 *  moment  in seconds, below 2^32
 * Refusals, the first that applies: 1 register not sound; 2 the moment out of range; 3 caller not in the register; 18 the caller is
 * not human.
 * Where nothing has expired, as at 0, the call is accepted and none goes. Accepted, every place past the count of claims holds a claim of
 * all zeros.
 * Stack: 74,000 bytes. */
guvrendik_revoked guvrendik_clear_expired(guvrendik_register r, uint32_t caller, uint64_t moment);

/* ---- The gate ---- */

/* One right on one resource. */
typedef struct guvrendik_usage {
    uint32_t resource; /* 0 to 65,535; need not stand */
    uint32_t right;    /* a right's number, GUVRENDIK_RIGHT_READ .., 0 to 16, and no part of a sum */
} guvrendik_usage;

typedef struct guvrendik_action {
    uint32_t actor; /* 0 to 65,535 */
    uint32_t flags; /* 0 to 1,023, a sum of parts GUVRENDIK_SETS_COERCES .., and no flag's number */
    uint64_t now;   /* a moment in seconds, below 2^32 */
    guvrendik_usage uses[GUVRENDIK_LIMIT_USES];
    size_t used;                               /* 0 to 32 */
    uint32_t governs[GUVRENDIK_LIMIT_GOVERNS]; /* actor numbers, each 0 to 65,535; not looked up */
    size_t governed;                           /* 0 to 8 */
} guvrendik_action;

/* A use of a right on a resource. */
static inline guvrendik_usage guvrendik_make_usage(uint32_t resource, guvrendik_right right) {
    guvrendik_usage u;
    u.resource = resource;
    u.right = (uint32_t)right;
    return u;
}

/* An action of one use at a moment, with no flag set and nothing governed. */
static inline guvrendik_action guvrendik_make_action(uint32_t actor, guvrendik_usage use, uint64_t now) {
    guvrendik_action a;
    uint8_t *bytes = (uint8_t *)&a;
    size_t i;
    for (i = 0; i < sizeof a; i++) bytes[i] = 0;
    a.actor = actor;
    a.now = now;
    a.uses[0] = use;
    a.used = 1;
    return a;
}

/* The part of a flag's number in an action's flags: GUVRENDIK_SETS_COERCES of 6, which a violation of kind GUVRENDIK_VIOLATION_FLAG has as
 * its value. 0 of a number that is no flag's. */
static inline uint32_t guvrendik_flag_part(uint32_t flag) {
    return flag < GUVRENDIK_LIMIT_FLAGS ? (uint32_t)1 << flag : 0;
}

/* Kinds of violation, in the order of a verdict's list. guvrendik_violation_text has words for them. */
#define GUVRENDIK_VIOLATION_FLAG 1              /* flag set. Value: the flag's number, lowest first */
#define GUVRENDIK_VIOLATION_MACHINE_OWNERLESS 2 /* machine without owner. Value: the actor's id */
#define GUVRENDIK_VIOLATION_MACHINE_GOVERNS 3   /* machine that governs. Value: the governed entry's position, from 0 */
#define GUVRENDIK_VIOLATION_NOT_COVERED 4       /* use that the actor does not cover. Value: the use's position, from 0. Kinds 4 and 5 come
                                                 * by use position */
#define GUVRENDIK_VIOLATION_OWNER_NOT_COVERED 5 /* use that the machine's owner does not cover. Value: the use's position */
/* 6 is not used and will not be: a register with a claim whose parent does not stand is not sound, and refused with 1. */

typedef struct guvrendik_violation {
    uint32_t kind;
    uint32_t value;
} guvrendik_violation;

/* Decisions, of a verdict and of a judgement. No number means two of them. */
#define GUVRENDIK_DECISION_PERMITTED 1
#define GUVRENDIK_DECISION_REFUSED 2   /* there are violations */
#define GUVRENDIK_DECISION_STOPPED 3   /* of a verdict: the call was refused */
#define GUVRENDIK_DECISION_CANCELLED 4 /* of a judgement: an action before it has a flag set */

/* The answer of guvrendik_gate and guvrendik_plain_gate. */
typedef struct guvrendik_verdict {
    uint32_t decision; /* PERMITTED, REFUSED or STOPPED */
    uint32_t refusal;  /* of a stopped one the number, else 0 */
    guvrendik_violation violations[GUVRENDIK_LIMIT_VIOLATIONS]; /* past the count {0, 0} */
    size_t count;                                               /* 0 where permitted or stopped */
    size_t hops[GUVRENDIK_LIMIT_USES]; /* by use: the hop count of the nearest claim by which the actor covers it, which is the one whose
                                        * path has the greatest length by guvrendik_contains, the first in the list on a tie; 0 where
                                        * there is none, past the uses, and where stopped */
} guvrendik_verdict;

/* Judges one action. An actor covers a use when the resource stands and it is public and the right is READ, or the actor holds a
 * claim that is live at the action's moment, over its whole chain, has the right, and is on a resource whose path contains the
 * used one's.
 *  r  the register
 *  a  the action, every field in the range that guvrendik_action gives
 * Refusals, the first that applies: 1 register not sound; 2 a field or count of the action out of range; 3 actor not in the
 * register. Then there are no violations and no hop counts.
 * Stack: 56,000 bytes. */
guvrendik_verdict guvrendik_gate(guvrendik_register r, guvrendik_action a);

#ifndef GUVRENDIK_WITHOUT_LENT
/* Judges one action by the register that lent bytes hold.
 *  bytes/bytes_len  the register, as for guvrendik_sound_lent
 *  a                the action
 * The whole answer is that of guvrendik_gate, refusals and hop counts included; 1 also where the length is another.
 * Stack: 39,000 bytes. */
guvrendik_verdict guvrendik_gate_lent(const uint8_t *bytes, size_t bytes_len, guvrendik_action a);
#endif

/* ---- Whose signature is missing ---- */

/* Actors who are willing to sign a grant. Any numbers: 0, doubles, one who does not stand and the actor itself are taken. */
typedef struct guvrendik_signers {
    uint32_t list[GUVRENDIK_LIMIT_SIGNERS];
    size_t count; /* 0 to 8 */
} guvrendik_signers;

/* Kinds of proposal. */
#define GUVRENDIK_PROPOSES_NONE 1  /* no grant: the use is permitted as it is. The claim is not looked at */
#define GUVRENDIK_PROPOSES_GRANT 2 /* a grant of the claim */

typedef struct guvrendik_proposal {
    uint64_t kind; /* PROPOSES_NONE or PROPOSES_GRANT. 0 is neither */
    guvrendik_claim claim;
} guvrendik_proposal;

/* The answer of guvrendik_propose. */
typedef struct guvrendik_proposed {
    guvrendik_proposal proposal; /* accepted: no grant, or a grant. Refused: zeros, which are of neither kind */
    uint32_t accepted;           /* 1 or 0 */
    uint32_t refusal;            /* 0 where accepted, else the number */
} guvrendik_proposed;

/* Proposes whose signature is missing. The one use is the action of the actor at the moment with that use alone, no flag and nothing governed.
 * No grant is proposed where guvrendik_gate permits the one use. Else one grant is: to the actor, of that single right on that resource, by the
 * first of the signers by whom a grant would help. A keeper signs a root of weight 1,000; any other signs below the first claim of his in the
 * register that serves, with its weight. The grant never expires, may not be passed on, and has the least free id.
 *  r        the register
 *  actor    the id of an actor; a number out of range is in no register
 *  usage    every field in the range that guvrendik_usage gives
 *  moment   in seconds, below 2^32
 *  signers  at most 8
 * Refusals, the first that applies: 1 register not sound; 2 more than 8 signers, or a field of the use or the moment out of range; 3 actor
 * not in the register; 26 no proposal would pass guvrendik_check_proposal. 26 is also told where the actor is a machine without owner or whose
 * owner does not cover the use, where the resource does not stand or its path has a `..`, and where 256 claims stand.
 * What is proposed passes guvrendik_check_proposal.
 * Stack: 56,000 bytes. */
guvrendik_proposed guvrendik_propose(guvrendik_register r, uint32_t actor, guvrendik_usage usage, uint64_t moment,
                                     guvrendik_signers signers);

/* Answers of the check. */
#define GUVRENDIK_CHECK_PASSES 1
#define GUVRENDIK_CHECK_FAILS 2
#define GUVRENDIK_CHECK_STOPPED 3 /* the call was refused */

/* The answer of guvrendik_check_proposal. */
typedef struct guvrendik_checked {
    uint32_t answer;  /* PASSES, FAILS or STOPPED */
    uint32_t refusal; /* of a stopped one the number, else 0 */
} guvrendik_checked;

/* Checks a proposal, whoever made it. The one use is the action of the actor at the moment with that use alone, no flag and nothing
 * governed. No grant passes where guvrendik_gate permits the one use. A grant passes where its holder is the actor, its resource the used
 * one, its rights that single right, its grantor one of the signers, guvrendik_grant would accept it at the moment, and guvrendik_gate would
 * permit the one use in the register that the grant leaves. Nothing else passes.
 *  r         the register
 *  actor     the id of an actor; a number out of range is in no register
 *  usage     every field in the range that guvrendik_usage gives
 *  moment    in seconds, below 2^32
 *  signers   at most 8
 *  proposal  any: a kind that is neither, or a field of the claim out of range, is a no
 * Refusals, the first that applies: 1 register not sound; 2 more than 8 signers, or a field of the use or the moment out of range; 3 actor
 * not in the register.
 * Where the use is permitted already, a grant of the form passes where it is accepted, one of weight 0 too.
 * Stack: 55,000 bytes. */
guvrendik_checked guvrendik_check_proposal(guvrendik_register r, uint32_t actor, guvrendik_usage usage, uint64_t moment,
                                           guvrendik_signers signers, guvrendik_proposal proposal);

typedef struct guvrendik_plan {
    guvrendik_action actions[GUVRENDIK_LIMIT_ACTIONS];
    size_t count; /* 0 to 16 */
} guvrendik_plan;

typedef struct guvrendik_judgement {
    uint32_t decision;   /* PERMITTED, REFUSED or CANCELLED */
    uint32_t violations; /* how many; 0 where permitted or cancelled */
} guvrendik_judgement;

/* The answer of guvrendik_judge_plan and guvrendik_plain_plan. */
typedef struct guvrendik_plan_verdict {
    uint32_t accepted; /* 1 or 0 */
    uint32_t refusal;  /* 0 where accepted, else the number */
    size_t position;   /* of the action that stopped the plan, from 0; 0 for 1, a bad count, and where accepted */
    guvrendik_judgement list[GUVRENDIK_LIMIT_ACTIONS]; /* past the count {0, 0} */
    size_t count;                                      /* the plan's; 0 where refused */
} guvrendik_plan_verdict;

/* Judges a plan, its actions in order. Every action after the first with a flag set is cancelled.
 *  r  the register
 *  p  the plan
 * Refusals, the first that applies: 1 register not sound; 2 more than 16 actions; then the first action that is refused with 2
 * or 3, as by guvrendik_gate, stops the whole plan, also one that would be cancelled. Then there are no judgements.
 * Stack: 60,000 bytes. */
guvrendik_plan_verdict guvrendik_judge_plan(guvrendik_register r, guvrendik_plan p);

#ifndef GUVRENDIK_WITHOUT_LENT
/* Judges a plan by the register that lent bytes hold.
 *  bytes/bytes_len  the register, as for guvrendik_sound_lent
 *  p                the plan
 * The whole answer is that of guvrendik_judge_plan; 1 also where the length is another.
 * Stack: 44,000 bytes. */
guvrendik_plan_verdict guvrendik_judge_plan_lent(const uint8_t *bytes, size_t bytes_len, guvrendik_plan p);
#endif

/* Judges one action by the plain gate, which goes once through the claims from first to last and fills a table of what the actor and
 * its owner cover, for each resource and right, at the action's moment; uses are then looked up.
 *  r  the register
 *  a  the action
 * The whole answer is that of guvrendik_gate, refusals and hop counts included: its contract is the same.
 * Stack: 61,000 bytes. */
guvrendik_verdict guvrendik_plain_gate(guvrendik_register r, guvrendik_action a);

/* Judges a plan by the plain gate, each action by a table of its own.
 *  r  the register
 *  p  the plan
 * The whole answer is that of guvrendik_judge_plan.
 * Stack: 73,000 bytes. */
guvrendik_plan_verdict guvrendik_plain_plan(guvrendik_register r, guvrendik_plan p);

/* ---- The cover table ----
 * What the plain gate fills in on its way through the claims, for a person to follow. */

/* What is said of a claim at a moment: it lives, or the first of the others that holds. */
#define GUVRENDIK_REMARK_LIVES 1
#define GUVRENDIK_REMARK_WEIGHTLESS 2
#define GUVRENDIK_REMARK_EXPIRED 3
#define GUVRENDIK_REMARK_SOURCE_DEAD 4

/* What a cell holds besides the place of a claim. */
#define GUVRENDIK_CELL_PUBLIC 256
#define GUVRENDIK_CELL_NOTHING 257

/* The answer of guvrendik_cover_table. */
typedef struct guvrendik_table {
    uint32_t accepted; /* 1 or 0 */
    uint32_t refusal;  /* 0 where accepted, else the number. Refused, all below is 0, and every cell holds nothing */
    uint32_t owner;    /* the id of the owner that is asked; 0 where the actor is no machine, or has none */
    uint32_t hops[GUVRENDIK_LIMIT_CLAIMS];   /* by the claim's place: its hop count; 0 past the claims */
    uint32_t states[GUVRENDIK_LIMIT_CLAIMS]; /* by the claim's place: a REMARK_; 0 past the claims */
    uint32_t own[GUVRENDIK_LIMIT_CELLS];     /* the actor's cells: the place of the claim that speaks, from 0, or a CELL_ */
    uint32_t owners[GUVRENDIK_LIMIT_CELLS];  /* the owner's cells; nothing in all of them where there is no owner */
} guvrendik_table;

/* The table of what an actor and its owner cover at a moment, for each resource and right: what guvrendik_plain_gate looks uses up in. The
 * cell of the resource at a place, from 0, and of a right is place * 17 + right; past the resources every cell holds nothing.
 *  r       the register
 *  actor   the id of the actor, 0 to 65,535
 *  moment  in seconds, below 2^32
 * Refusals, the first that applies: 1 register not sound; 2 actor or moment out of range; 3 actor not in the register.
 * Stack: 80,000 bytes. */
guvrendik_table guvrendik_cover_table(guvrendik_register r, uint32_t actor, uint64_t moment);

/* ---- The fingerprint book ----
 * A book keeps, for each resource number, the fingerprint that was attached to it last, or none. It is the caller's, beside the register:
 * a call takes it by value, and an attach hands it back. All zeros is the empty book. An entry is kept for good. */

typedef struct guvrendik_fingerprint {
    uint8_t bytes[GUVRENDIK_LIMIT_FINGERPRINT];
} guvrendik_fingerprint;

/* A resource's number, which is not looked up and has no range here, and what is attached to it. */
typedef struct guvrendik_entry {
    uint32_t resource;
    guvrendik_fingerprint fingerprint;
} guvrendik_entry;

typedef struct guvrendik_book {
    guvrendik_entry entries[GUVRENDIK_LIMIT_ENTRIES]; /* no two of one number below the count; past it ignored and kept */
    size_t count;                              /* 0 to 64 */
} guvrendik_book;

/* The answer of guvrendik_attach. */
typedef struct guvrendik_attached {
    guvrendik_book book; /* accepted: with the fingerprint in the number's entry, or in a new one behind the others. Refused: as it came */
    uint32_t accepted;   /* 1 or 0 */
    uint32_t refusal;    /* 0 where accepted, else the number */
} guvrendik_attached;

/* Attaches a fingerprint to a resource's number. It is judged as the action of one use of WRITE, no flag set and nothing governed.
 *  book         the book before
 *  r            the register
 *  actor        the id of the acting actor, 0 to 65,535
 *  resource     0 to 65,535; where no such resource stands the action is not permitted
 *  moment       in seconds, below 2^32
 *  fingerprint  any 32 bytes, zeros too
 * Refusals, the first that applies: 1 register not sound; 30 book with more than 64 entries or with two for one number, told to anyone;
 * 2 actor, resource or moment out of range; 3 actor not in the register; 27 the gate does not permit the action; 29 the number is new
 * and 64 entries stand. Refused, the book is as it came, whole.
 * Accepted, every entry but the number's, and what stands past the count, is as it came.
 * Entries go by number: where another register gives the number to another report, its old fingerprint stands.
 * Stack: 61,000 bytes. */
guvrendik_attached guvrendik_attach(guvrendik_book book, guvrendik_register r, uint32_t actor, uint32_t resource, uint64_t moment,
                                    guvrendik_fingerprint fingerprint);

/* The answer of guvrendik_fetch. */
typedef struct guvrendik_fetched {
    guvrendik_fingerprint fingerprint; /* accepted: the number's. Refused: zeros */
    uint32_t accepted;                 /* 1 or 0. Zeros may be attached: this tells them from none */
    uint32_t refusal;                  /* 0 where accepted, else the number */
} guvrendik_fetched;

/* Fetches the fingerprint of a resource's number. It is judged as the action of one use of READ, no flag set and nothing governed: a
 * public report is fetched by every actor of the register.
 *  book, r, actor, resource, moment  as for guvrendik_attach
 * Refusals, the first that applies: 1, 30, 2, 3 and 27 as for guvrendik_attach; 28 nothing is attached to the number. Where the action
 * is not permitted, the answer is the same of every book that is not refused with 30: it does not tell whether an entry stands.
 * Stack: 57,000 bytes. */
guvrendik_fetched guvrendik_fetch(guvrendik_book book, guvrendik_register r, uint32_t actor, uint32_t resource, uint64_t moment);

/* ---- Why a register is not sound ----
 * For those who keep the register: GUVRENDIK_REFUSAL_UNSOUND says of up to 256 claims that something is wrong, and no more. */

/* Lists of a register, as a fault names them. */
#define GUVRENDIK_LIST_REGISTER 0
#define GUVRENDIK_LIST_ACTORS 1
#define GUVRENDIK_LIST_RESOURCES 2
#define GUVRENDIK_LIST_CLAIMS 3

/* The answer of guvrendik_why_unsound and guvrendik_why_unread. A struct that was never written, all zeros, reads as a no. */
typedef struct guvrendik_fault {
    uint32_t sound; /* 1: sound, and all else is 0. 0: not */
    uint32_t why;   /* the number of the rule that is broken: a REFUSAL_ */
    uint32_t list;  /* LIST_ */
    uint32_t id;    /* of the record, whatever it is; 0 of a count, of the version, of 19 and 20 */
    size_t place;   /* of the record in its list, from 0; of a count above its limit the limit */
    size_t line;    /* of guvrendik_why_unread with 19 and 20: the first failing line, from 1. Else 0 */
} guvrendik_fault;

/* The first fault of a register, in this order: the version (2, LIST_REGISTER); the counts of actors, of resources and of claims (2, with the
 * list and the first place too many); then each actor, each resource and each claim by its place.
 *  r  any register
 * Of an actor: 2 a field out of range; 32 owner of a human, or owner who is no human of the register; 31 an earlier actor has the id. Of a
 * resource: 2; 33 keeper who is no human of the register; 31. Of a claim what guvrendik_grant of it behind the claims before it would be
 * refused with, were all of them live: 2, 3, 4, 6 to 10, 12 to 16. With the claims before it the register is sound, with it it is not.
 * Nothing is refused. sound is 1 exactly where guvrendik_sound says so.
 * Stack: 52,000 bytes. */
guvrendik_fault guvrendik_why_unsound(guvrendik_register r);

/* The first fault of a text that is to be a register: the first failing line, with 19 or 20, as guvrendik_read_register tells it; or else the
 * first fault of the register that the lines say, as guvrendik_why_unsound tells it, with line 0. guvrendik_read_register hands back the empty
 * register in its place, so nothing else can tell.
 *  text/text_len  any bytes of any length. The caller owns them; read during the call only, never written. May be NULL where text_len is 0.
 * Nothing is refused. sound is 1 exactly where guvrendik_read_register accepts.
 * Stack: 52,000 bytes. */
guvrendik_fault guvrendik_why_unread(const uint8_t *text, size_t text_len);

/* ---- Who may, and why ----
 * For those who keep the register: what these calls tell is not for a visitor. */

/* The answer of guvrendik_who. */
typedef struct guvrendik_holders {
    uint32_t accepted;                    /* 1 or 0 */
    uint32_t refusal;                     /* 0 where accepted, else the number */
    uint32_t ids[GUVRENDIK_LIMIT_ACTORS]; /* who may, in register order; zeros past the count, and all where refused */
    size_t count;                         /* 0 to 64 */
} guvrendik_holders;

/* Who may make a use at a moment: every actor for whom guvrendik_gate permits the action of that use alone, no flag set and nothing
 * governed, and nobody else.
 *  r       the register
 *  usage   every field in the range that guvrendik_usage gives; of a resource that does not stand nobody may
 *  moment  in seconds, below 2^32
 * Refusals, the first that applies: 1 register not sound; 2 a field of the use or the moment out of range.
 * Stack: 55,000 bytes. */
guvrendik_holders guvrendik_who(guvrendik_register r, guvrendik_usage usage, uint64_t moment);

/* Kinds of reason, the first that holds. */
#define GUVRENDIK_REASON_UNASKED 0
#define GUVRENDIK_REASON_RELIES 1   /* the claim relied on */
#define GUVRENDIK_REASON_PUBLIC 2   /* a public READ */
#define GUVRENDIK_REASON_NOT_LIVE 3 /* the nearest claim held that contains the report and has the right is not live */
#define GUVRENDIK_REASON_LACKS 4    /* the nearest claim held that contains it lacks the right */
#define GUVRENDIK_REASON_UNHELD 5   /* no claim held contains it, or it does not stand */

typedef struct guvrendik_reason {
    uint32_t kind;                         /* REASON_ */
    uint32_t count;                        /* of the chain, 1 to 17; 0 where no claim is told */
    uint32_t chain[GUVRENDIK_LIMIT_CHAIN]; /* ids from the claim up to its root; zeros past the count */
    uint32_t keeper;                       /* the root's grantor; 0 where no claim is told */
    uint32_t ended;                        /* NOT_LIVE: the first on the chain, from the claim up, that has weight 0 or has expired; else 0 */
} guvrendik_reason;

/* The answer of guvrendik_why_use. */
typedef struct guvrendik_use_reason {
    uint32_t accepted;       /* 1 or 0 */
    uint32_t refusal;        /* 0 where accepted, else the number; refused, all below is 0 */
    guvrendik_reason actor;
    uint32_t owner;          /* of a machine with an owner his number, else 0 */
    guvrendik_reason owners; /* his reason; UNASKED where there is none */
} guvrendik_use_reason;

/* Why an actor may make a use at a moment or may not. Of a human RELIES and PUBLIC say that guvrendik_gate permits the action of that use
 * alone; of a machine it does where both its own reason and its owner's are one of these. A machine without owner, whose owner is 0 as a
 * human's is, may make no use whatever its reason: the gate tells it with GUVRENDIK_VIOLATION_MACHINE_OWNERLESS. Of LACKS it is not asked
 * whether the claim is live.
 *  r       the register
 *  actor   the id of the acting actor, 0 to 65,535
 *  usage   every field in the range that guvrendik_usage gives
 *  moment  in seconds, below 2^32
 * Refusals, the first that applies: 1 register not sound; 2 actor, a field of the use or the moment out of range; 3 actor not in the
 * register.
 * NOT_LIVE and LACKS tell that the report stands, and a chain names others' claims.
 * Stack: 62,000 bytes. */
guvrendik_use_reason guvrendik_why_use(guvrendik_register r, uint32_t actor, guvrendik_usage usage, uint64_t moment);

/* ---- Paths ---- */

/* The answer of a containment. A struct that was never written, all zeros, reads as a no. */
typedef struct guvrendik_containment {
    uint64_t contained; /* 1: outer contains inner. 0: it does not. No other number. */
    size_t length;      /* with a yes: how long outer is without the slashes at its end, which may be 0. With a no: 0 */
} guvrendik_containment;

/* Whether the outer path contains the inner one, and how long the outer one then is without the slashes at its end.
 *  outer/outer_len  a path of any length and any bytes. The caller owns it; read during the call only, never written. May be
 *                   NULL where outer_len is 0.
 *  inner/inner_len  the same. The two may overlap.
 * The answer is a no where either path has a component equal to `..`. Else it is a yes where outer is empty, where inner equals
 * outer without the slashes at its end, and where inner goes on from there with a slash. No refusal: every input is answered.
 * Stack: 128 bytes.
 * Proved: the answer is that of `contained` and `reached` in crates/paths/specs/Containment.antt, for all bytes and lengths. Not
 * proved: that the caller's pointers and lengths are good. */
guvrendik_containment guvrendik_contains(const uint8_t *outer, size_t outer_len, const uint8_t *inner, size_t inner_len);

/* ---- Texts ----
 * Lines key=value, each ended by LF, decimals without leading zeros.
 * A register: register=, 1 or 2, its version; actors=, per actor actor, kind (human or machine), owner; resources=, per resource
 * resource, public, keeper, scope; claims=, per claim claim, parent, grantor, holder, resource, rights, weight, in version 2 left,
 * expiry. Nothing follows.
 * An action: now, actor, flags; uses=, per use use and right; governs=, per entry govern. Nothing follows.
 * A plan: plan= with the number of its steps; each step begins with step=action, and an action's lines follow, or with step=plan, and
 * a plan follows. Behind the outermost plan nothing follows. */

/* The answer of guvrendik_read_register. */
typedef struct guvrendik_register_read {
    guvrendik_register state; /* accepted: the register, zeros past the counts and past each path; in version 1 the left of each claim is 16
                               * less its hop count. Refused: the empty register of version 1, all zeros but for the version */
    uint32_t accepted;        /* 1 or 0 */
    uint32_t refusal;         /* 0 where accepted, else the number */
    size_t line;              /* of 19 and 20: the first failing line, from 1. Else 0 */
} guvrendik_register_read;

/* Reads a register's text.
 *  text/text_len  any bytes, any length. The caller owns it; read during the call only, never written. May be NULL where
 *                 text_len is 0.
 * Refusals: the first failing line decides between 19, not of the form or a number or path outside its field's range, and 20, a
 * count above its limit, whatever its length; a text that ends early, and bytes after the end, fail as the next line with 19.
 * Soundness comes last, with 1.
 * Stack: 83,000 bytes. */
guvrendik_register_read guvrendik_read_register(const uint8_t *text, size_t text_len);

/* The answer of a call that writes a text. */
typedef struct guvrendik_written {
    uint32_t accepted; /* 1 or 0 */
    uint32_t refusal;  /* 0 where accepted, else the number */
    size_t length;     /* bytes written at the front of the buffer; 0 where refused */
} guvrendik_written;

/* Writes the register's text. Reading that text gives the same register.
 *  r                  the register
 *  buffer/buffer_len  where to. The caller owns it; written during the call only. GUVRENDIK_TEXT_REGISTER bytes are enough for
 *                     every register. May be NULL where buffer_len is 0.
 * Refusals, the first that applies: 1 register not sound; 21 buffer too short. Then the buffer keeps every byte.
 * Accepted, the buffer keeps its bytes past the text. No zero byte is added.
 * Stack: 80,000 bytes. */
guvrendik_written guvrendik_write_register(guvrendik_register r, uint8_t *buffer, size_t buffer_len);

/* The answer of guvrendik_read_action. */
typedef struct guvrendik_action_read {
    guvrendik_action action; /* accepted: the action, zeros past the counts. Refused: all zeros */
    uint32_t accepted;       /* 1 or 0 */
    uint32_t refusal;        /* 0 where accepted, else the number */
    size_t line;             /* of the refusal: the first failing line, from 1. Else 0 */
} guvrendik_action_read;

/* Reads an action's text.
 *  text/text_len  as for guvrendik_read_register.
 * Refusals: 19 and 20 in the same way.
 * Stack: 2,000 bytes. */
guvrendik_action_read guvrendik_read_action(const uint8_t *text, size_t text_len);

/* The answer of guvrendik_judge_plan_text. */
typedef struct guvrendik_plan_text_verdict {
    uint32_t accepted; /* 1 or 0 */
    uint32_t refusal;  /* 0 where accepted, else the number */
    size_t line;       /* of 19, 20, 22 and 23: the first failing line, from 1. Else 0 */
    size_t position;   /* of 3: the first action whose actor is not in the register, in reading order from 0. Else 0 */
    guvrendik_judgement list[GUVRENDIK_LIMIT_TEXT_ACTIONS]; /* of each action, in reading order; past the count {0, 0} */
    size_t count;                                           /* the actions of the text; 0 where refused */
} guvrendik_plan_text_verdict;

/* Judges a plan's text, whose steps are actions or plans of their own. The verdicts are those of the flat list of its actions in reading
 * order: every action after the first with a flag set is cancelled, in whatever plan of the text it stands.
 *  r              the register
 *  text/text_len  as for guvrendik_read_register. A plan has 0 to GUVRENDIK_LIMIT_STEPS steps, the text 1 to GUVRENDIK_LIMIT_LEVELS
 *                 levels of plans, the outermost being 1, and 0 to GUVRENDIK_LIMIT_TEXT_ACTIONS actions in all. Plans may be empty, at
 *                 every level, so no length is enough for every text.
 * Refusals: first the text, whose first failing line decides between 19, not of the form or a number outside its field's range; 20, a
 * count above its limit, 64 of plan=, 32 of uses=, 8 of governs=; 22, a line step=plan that would open a ninth level; and 23, a line
 * step=action that would begin the 65th action. Then 1 register not sound. Then 3, the first action whose actor is not in the
 * register, also one that would be cancelled. Refused, there are no verdicts. 2 cannot happen: such a number is a 19.
 * Stack: 78,000 bytes. */
guvrendik_plan_text_verdict guvrendik_judge_plan_text(guvrendik_register r, const uint8_t *text, size_t text_len);

/* Writes the lines that the printing program prints for a register's text and an action's text: verdict=permitted and
 * violations=0; or verdict=refused, violations= with their number, and for each one violation= with its kind and at= with its
 * value; or verdict=stopped and refusal= with the first refusal of reading the register, reading the action and the gate.
 *  register_text/register_len  as for guvrendik_read_register. Judged whole: it is the program that reads no more than the first
 *  action_text/action_len      65,536 bytes of a file.
 *  buffer/buffer_len           where to, as for guvrendik_write_register. It overlaps neither text. GUVRENDIK_TEXT_VERDICT bytes
 *                              are enough for every verdict.
 * Refusal: 21 buffer too short. Then the buffer keeps every byte. A text that is not read is no refusal of this call: its answer
 * is the text with verdict=stopped.
 * Stack: 56,000 bytes. */
guvrendik_written guvrendik_verdict_text(const uint8_t *register_text, size_t register_len, const uint8_t *action_text,
                                         size_t action_len, uint8_t *buffer, size_t buffer_len);

/* Writes the lines that the printing program for JSON actions prints, of the same form, for a register's text, a clock's text, which is
 * one line now= with the moment, and a JSON action. Stopped, the refusal is the first of reading the register; of reading the clock, 19,
 * or 2 for a moment out of range; of reading the action, 24; and of the gate.
 *  register_text/register_len  the three texts, as for guvrendik_verdict_text. Each is judged whole.
 *  clock_text/clock_len
 *  action_text/action_len
 *  buffer/buffer_len           where to, as for guvrendik_write_register. It overlaps none of the texts. GUVRENDIK_TEXT_VERDICT bytes are
 *                              enough for every verdict.
 * Refusal: 21 buffer too short. Then the buffer keeps every byte.
 * Stack: 56,000 bytes. */
guvrendik_written guvrendik_json_verdict_text(const uint8_t *register_text, size_t register_len, const uint8_t *clock_text,
                                              size_t clock_len, const uint8_t *action_text, size_t action_len, uint8_t *buffer,
                                              size_t buffer_len);

/* Writes the lines that the printing program for plan texts prints for a register's text and a plan's text: plan=judged, verdicts= with
 * their number, and for each action verdict=permitted, or verdict=refused and violations= with their number, or verdict=cancelled; or
 * plan=stopped and refusal= with the first refusal of reading the register and of guvrendik_judge_plan_text. Behind one of the second
 * stands line= with the failing line of the plan's text, behind a 3 position= of the action.
 *  register_text/register_len  the two texts, as for guvrendik_verdict_text. Each is judged whole.
 *  plan_text/plan_len
 *  buffer/buffer_len           where to, as for guvrendik_write_register. It overlaps neither text. GUVRENDIK_TEXT_PLAN_VERDICT bytes are
 *                              enough for every answer.
 * Refusal: 21 buffer too short. Then the buffer keeps every byte.
 * Stack: 82,000 bytes. */
guvrendik_written guvrendik_plan_verdict_text(const uint8_t *register_text, size_t register_len, const uint8_t *plan_text,
                                              size_t plan_len, uint8_t *buffer, size_t buffer_len);

/* ---- JSON actions ----
 * The portal builder's ActionWire form, version 2: one object with the keys, in the order of writing, id, actor, capability_kind,
 * resources_read, resources_write, resources_execute, flags, trust_domain and delegation_depth.
 *  id                 a string of 0 to 64 bytes, each 0x20 to 0x7E, no quote and no backslash
 *  actor              a string that holds a decimal without leading zeros, 0 to 65,535
 *  capability_kind    a string, one of the seventeen rights by its name: READ to POLICY_MODIFY. The gate does not use it.
 *  resources_..       arrays of strings that hold such decimals, at most 32 in all: uses of READ, WRITE and EXECUTE
 *  flags              an object with a boolean for each of the ten flags, in their order: increases_machine_sovereignty,
 *                     resists_human_correction, bypasses_verifier, weakens_verifier, disables_corrigibility,
 *                     machine_coalition_dominion, coerces, deceives, self_modification_weakens_verifier,
 *                     machine_coalition_reduces_freedom
 *  trust_domain       the string default, and no other
 *  delegation_depth   the number 0, and no other
 * The moment is no part of it. */

/* The answer of guvrendik_read_json. */
typedef struct guvrendik_json_read {
    guvrendik_action action; /* accepted: the reads, then the writes, then the executes, each in its array's order; nothing
                              * governed; zeros past the counts. Refused: all zeros, its moment too */
    uint32_t accepted;       /* 1 or 0 */
    uint32_t refusal;        /* 0 where accepted, else the number */
    uint32_t kind;           /* the right that capability_kind names; 0 where refused */
    uint32_t id_len;         /* bytes of the id; 0 where refused */
    uint8_t id[GUVRENDIK_LIMIT_JSON_ID]; /* zeros past its length */
} guvrendik_json_read;

/* Reads a JSON action.
 *  text/text_len  as for guvrendik_read_register. Keys in any order, also those of the flags, each once. trust_domain and
 *                 delegation_depth may be missing, each by itself, all other keys and all ten flags must be there. Space, tab, LF
 *                 and CR may stand around any token and at both ends; no escapes.
 *  moment         the action's, in seconds, below 2^32
 * Refusals, the first that applies: 2 the moment out of range, whatever the text; 24 for everything else: another form, a number out
 * of range, more than 32 uses.
 * Stack: 3,000 bytes. */
guvrendik_json_read guvrendik_read_json(const uint8_t *text, size_t text_len, uint64_t moment);

/* Writes an action as JSON: all nine keys in their order, no blanks. Reading that text at the action's moment gives the same id
 * and kind, and the action with its uses ordered by right, otherwise in their old order.
 *  a                  the action, every field in the range that guvrendik_action gives, its moment too, though it is not written
 *  id/id_len          the id, 0 to 64 bytes as above. The caller owns it; read during the call only, never written. It does not
 *                     overlap the buffer. May be NULL where id_len is 0.
 *  kind               the right that capability_kind is to name, 0 to 16
 *  buffer/buffer_len  where to, as for guvrendik_write_register. GUVRENDIK_TEXT_JSON bytes are enough for every action.
 * Refusals, the first that applies: 2 a field or count of the action, the id or the kind out of range; 25 a right above 2 or a
 * governed entry; 21 buffer too short. Then the buffer keeps every byte.
 * Accepted, the buffer keeps its bytes past the text. No zero byte is added.
 * Stack: 3,000 bytes. */
guvrendik_written guvrendik_write_json(guvrendik_action a, const uint8_t *id, size_t id_len, uint32_t kind, uint8_t *buffer,
                                       size_t buffer_len);

/* ---- Words ----
 * Each call writes the words for a number, any number: one that stands for nothing has its own, `unknown refusal` and the like.
 *  buffer/buffer_len  where to, as for guvrendik_write_register. GUVRENDIK_TEXT_WORDS bytes are enough for every number.
 * Refusal: 21 buffer too short. Then the buffer keeps every byte. No zero byte is added. */

/* What a refusal's number says. 0 is `not refused`.
 * Stack: 2,000 bytes. */
guvrendik_written guvrendik_refusal_text(uint32_t number, uint8_t *buffer, size_t buffer_len);

/* What a violation's kind says. 0 and 6 are none.
 * Stack: 1,000 bytes. */
guvrendik_written guvrendik_violation_text(uint32_t kind, uint8_t *buffer, size_t buffer_len);

/* The name of a right, 0 to 16: READ to POLICY_MODIFY.
 * Stack: 1,000 bytes. */
guvrendik_written guvrendik_right_name(uint32_t right, uint8_t *buffer, size_t buffer_len);

/* The name of a flag, 0 to 9, as in a JSON action: increases_machine_sovereignty to machine_coalition_reduces_freedom.
 * Stack: 1,000 bytes. */
guvrendik_written guvrendik_flag_name(uint32_t flag, uint8_t *buffer, size_t buffer_len);

/* ---- The library ---- */

/* The answer of guvrendik_version. */
typedef struct guvrendik_version_numbers {
    uint32_t major;
    uint32_t minor;
    uint32_t patch;
} guvrendik_version_numbers;

/* The version of the library. With this header it is GUVRENDIK_VERSION_MAJOR, _MINOR and _PATCH.
 * Stack: 128 bytes. */
guvrendik_version_numbers guvrendik_version(void);

/* ---- By pointer ----
 * The twin of each call, for languages whose foreign calls pass no struct by value: guvrendik_gate_at is guvrendik_gate, and so on. First
 * comes where the answer goes, then what the call takes, each struct by pointer, everything else as the call has it. A twin answers and
 * refuses what its call does, and decides nothing: it copies what it takes, calls, and stores the whole answer. The twins of
 * guvrendik_sound, guvrendik_gate and guvrendik_judge_plan copy no register: they lend it.
 *  answer  where to. The caller owns it; written during the call only, whole, whatever it held. It overlaps nothing that the call takes.
 * No pointer to a struct is NULL; each is aligned as its struct is, by 8 bytes where it has a field of 64 bits, else by 4. */
void guvrendik_sound_at(guvrendik_soundness *answer, const guvrendik_register *r);
void guvrendik_sound_table_at(guvrendik_soundness *answer, const guvrendik_claim *claims, size_t claims_len, uint64_t version,
                              const guvrendik_actors *actors, const guvrendik_resources *resources);
#ifndef GUVRENDIK_WITHOUT_LENT
void guvrendik_sound_lent_at(guvrendik_soundness *answer, const uint8_t *bytes, size_t bytes_len);
void guvrendik_gate_lent_at(guvrendik_verdict *answer, const uint8_t *bytes, size_t bytes_len, const guvrendik_action *a);
void guvrendik_judge_plan_lent_at(guvrendik_plan_verdict *answer, const uint8_t *bytes, size_t bytes_len, const guvrendik_plan *p);
#endif
void guvrendik_grant_at(guvrendik_granted *answer, const guvrendik_register *r, const guvrendik_claim *c, uint64_t moment);
void guvrendik_revoke_at(guvrendik_revoked *answer, const guvrendik_register *r, uint32_t revoker, uint32_t claim);
void guvrendik_clear_resource_at(guvrendik_revoked *answer, const guvrendik_register *r, uint32_t caller, uint32_t resource);
void guvrendik_clear_expired_at(guvrendik_revoked *answer, const guvrendik_register *r, uint32_t caller, uint64_t moment);
void guvrendik_gate_at(guvrendik_verdict *answer, const guvrendik_register *r, const guvrendik_action *a);
void guvrendik_propose_at(guvrendik_proposed *answer, const guvrendik_register *r, uint32_t actor, const guvrendik_usage *usage,
                          uint64_t moment, const guvrendik_signers *signers);
void guvrendik_check_proposal_at(guvrendik_checked *answer, const guvrendik_register *r, uint32_t actor, const guvrendik_usage *usage,
                                 uint64_t moment, const guvrendik_signers *signers, const guvrendik_proposal *proposal);
void guvrendik_judge_plan_at(guvrendik_plan_verdict *answer, const guvrendik_register *r, const guvrendik_plan *p);
void guvrendik_plain_gate_at(guvrendik_verdict *answer, const guvrendik_register *r, const guvrendik_action *a);
void guvrendik_plain_plan_at(guvrendik_plan_verdict *answer, const guvrendik_register *r, const guvrendik_plan *p);
void guvrendik_cover_table_at(guvrendik_table *answer, const guvrendik_register *r, uint32_t actor, uint64_t moment);
void guvrendik_attach_at(guvrendik_attached *answer, const guvrendik_book *book, const guvrendik_register *r, uint32_t actor,
                         uint32_t resource, uint64_t moment, const guvrendik_fingerprint *fingerprint);
void guvrendik_fetch_at(guvrendik_fetched *answer, const guvrendik_book *book, const guvrendik_register *r, uint32_t actor,
                        uint32_t resource, uint64_t moment);
void guvrendik_why_unsound_at(guvrendik_fault *answer, const guvrendik_register *r);
void guvrendik_why_unread_at(guvrendik_fault *answer, const uint8_t *text, size_t text_len);
void guvrendik_who_at(guvrendik_holders *answer, const guvrendik_register *r, const guvrendik_usage *usage, uint64_t moment);
void guvrendik_why_use_at(guvrendik_use_reason *answer, const guvrendik_register *r, uint32_t actor, const guvrendik_usage *usage,
                          uint64_t moment);
void guvrendik_contains_at(guvrendik_containment *answer, const uint8_t *outer, size_t outer_len, const uint8_t *inner,
                           size_t inner_len);
void guvrendik_read_register_at(guvrendik_register_read *answer, const uint8_t *text, size_t text_len);
void guvrendik_write_register_at(guvrendik_written *answer, const guvrendik_register *r, uint8_t *buffer, size_t buffer_len);
void guvrendik_read_action_at(guvrendik_action_read *answer, const uint8_t *text, size_t text_len);
void guvrendik_judge_plan_text_at(guvrendik_plan_text_verdict *answer, const guvrendik_register *r, const uint8_t *text,
                                  size_t text_len);
void guvrendik_verdict_text_at(guvrendik_written *answer, const uint8_t *register_text, size_t register_len, const uint8_t *action_text,
                               size_t action_len, uint8_t *buffer, size_t buffer_len);
void guvrendik_json_verdict_text_at(guvrendik_written *answer, const uint8_t *register_text, size_t register_len,
                                    const uint8_t *clock_text, size_t clock_len, const uint8_t *action_text, size_t action_len,
                                    uint8_t *buffer, size_t buffer_len);
void guvrendik_plan_verdict_text_at(guvrendik_written *answer, const uint8_t *register_text, size_t register_len,
                                    const uint8_t *plan_text, size_t plan_len, uint8_t *buffer, size_t buffer_len);
void guvrendik_read_json_at(guvrendik_json_read *answer, const uint8_t *text, size_t text_len, uint64_t moment);
void guvrendik_write_json_at(guvrendik_written *answer, const guvrendik_action *a, const uint8_t *id, size_t id_len, uint32_t kind,
                             uint8_t *buffer, size_t buffer_len);
void guvrendik_refusal_text_at(guvrendik_written *answer, uint32_t number, uint8_t *buffer, size_t buffer_len);
void guvrendik_violation_text_at(guvrendik_written *answer, uint32_t kind, uint8_t *buffer, size_t buffer_len);
void guvrendik_right_name_at(guvrendik_written *answer, uint32_t right, uint8_t *buffer, size_t buffer_len);
void guvrendik_flag_name_at(guvrendik_written *answer, uint32_t flag, uint8_t *buffer, size_t buffer_len);
void guvrendik_version_at(guvrendik_version_numbers *answer);

/* ---- Sizes ----
 * The bytes of each struct, for a binding to hold itself to. C11 and C++11 hold this header to them. */
#define GUVRENDIK_SIZE_ACTOR 12
#define GUVRENDIK_SIZE_RESOURCE 80
#define GUVRENDIK_SIZE_CLAIM 40
#define GUVRENDIK_SIZE_ACTORS 776
#define GUVRENDIK_SIZE_RESOURCES 5128
#define GUVRENDIK_SIZE_CLAIMS 10248
#define GUVRENDIK_SIZE_REGISTER 16160
#define GUVRENDIK_SIZE_SOUNDNESS 4
#define GUVRENDIK_SIZE_GRANTED 16168
#define GUVRENDIK_SIZE_REVOKED 16176
#define GUVRENDIK_SIZE_USAGE 8
#define GUVRENDIK_SIZE_ACTION 320
#define GUVRENDIK_SIZE_VIOLATION 8
#define GUVRENDIK_SIZE_VERDICT 680
#define GUVRENDIK_SIZE_SIGNERS 40
#define GUVRENDIK_SIZE_PROPOSAL 48
#define GUVRENDIK_SIZE_PROPOSED 56
#define GUVRENDIK_SIZE_CHECKED 8
#define GUVRENDIK_SIZE_PLAN 5128
#define GUVRENDIK_SIZE_JUDGEMENT 8
#define GUVRENDIK_SIZE_PLAN_VERDICT 152
#define GUVRENDIK_SIZE_TABLE 10764
#define GUVRENDIK_SIZE_FINGERPRINT 32
#define GUVRENDIK_SIZE_ENTRY 36
#define GUVRENDIK_SIZE_BOOK 2312
#define GUVRENDIK_SIZE_ATTACHED 2320
#define GUVRENDIK_SIZE_FETCHED 40
#define GUVRENDIK_SIZE_FAULT 32
#define GUVRENDIK_SIZE_HOLDERS 272
#define GUVRENDIK_SIZE_REASON 84
#define GUVRENDIK_SIZE_USE_REASON 180
#define GUVRENDIK_SIZE_CONTAINMENT 16
#define GUVRENDIK_SIZE_REGISTER_READ 16176
#define GUVRENDIK_SIZE_WRITTEN 16
#define GUVRENDIK_SIZE_ACTION_READ 336
#define GUVRENDIK_SIZE_PLAN_TEXT_VERDICT 544
#define GUVRENDIK_SIZE_JSON_READ 400
#define GUVRENDIK_SIZE_VERSION_NUMBERS 12

#if defined(__cplusplus) && __cplusplus >= 201103L
#define GUVRENDIK_HOLD(type, size) static_assert(sizeof(type) == (size), "the size of " #type)
#elif defined(__STDC_VERSION__) && __STDC_VERSION__ >= 201112L
#define GUVRENDIK_HOLD(type, size) _Static_assert(sizeof(type) == (size), "the size of " #type)
#endif
#ifdef GUVRENDIK_HOLD
GUVRENDIK_HOLD(guvrendik_actor, GUVRENDIK_SIZE_ACTOR);
GUVRENDIK_HOLD(guvrendik_resource, GUVRENDIK_SIZE_RESOURCE);
GUVRENDIK_HOLD(guvrendik_claim, GUVRENDIK_SIZE_CLAIM);
GUVRENDIK_HOLD(guvrendik_actors, GUVRENDIK_SIZE_ACTORS);
GUVRENDIK_HOLD(guvrendik_resources, GUVRENDIK_SIZE_RESOURCES);
GUVRENDIK_HOLD(guvrendik_claims, GUVRENDIK_SIZE_CLAIMS);
GUVRENDIK_HOLD(guvrendik_register, GUVRENDIK_SIZE_REGISTER);
GUVRENDIK_HOLD(guvrendik_soundness, GUVRENDIK_SIZE_SOUNDNESS);
GUVRENDIK_HOLD(guvrendik_granted, GUVRENDIK_SIZE_GRANTED);
GUVRENDIK_HOLD(guvrendik_revoked, GUVRENDIK_SIZE_REVOKED);
GUVRENDIK_HOLD(guvrendik_usage, GUVRENDIK_SIZE_USAGE);
GUVRENDIK_HOLD(guvrendik_action, GUVRENDIK_SIZE_ACTION);
GUVRENDIK_HOLD(guvrendik_violation, GUVRENDIK_SIZE_VIOLATION);
GUVRENDIK_HOLD(guvrendik_verdict, GUVRENDIK_SIZE_VERDICT);
GUVRENDIK_HOLD(guvrendik_signers, GUVRENDIK_SIZE_SIGNERS);
GUVRENDIK_HOLD(guvrendik_proposal, GUVRENDIK_SIZE_PROPOSAL);
GUVRENDIK_HOLD(guvrendik_proposed, GUVRENDIK_SIZE_PROPOSED);
GUVRENDIK_HOLD(guvrendik_checked, GUVRENDIK_SIZE_CHECKED);
GUVRENDIK_HOLD(guvrendik_plan, GUVRENDIK_SIZE_PLAN);
GUVRENDIK_HOLD(guvrendik_judgement, GUVRENDIK_SIZE_JUDGEMENT);
GUVRENDIK_HOLD(guvrendik_plan_verdict, GUVRENDIK_SIZE_PLAN_VERDICT);
GUVRENDIK_HOLD(guvrendik_table, GUVRENDIK_SIZE_TABLE);
GUVRENDIK_HOLD(guvrendik_fingerprint, GUVRENDIK_SIZE_FINGERPRINT);
GUVRENDIK_HOLD(guvrendik_entry, GUVRENDIK_SIZE_ENTRY);
GUVRENDIK_HOLD(guvrendik_book, GUVRENDIK_SIZE_BOOK);
GUVRENDIK_HOLD(guvrendik_attached, GUVRENDIK_SIZE_ATTACHED);
GUVRENDIK_HOLD(guvrendik_fetched, GUVRENDIK_SIZE_FETCHED);
GUVRENDIK_HOLD(guvrendik_fault, GUVRENDIK_SIZE_FAULT);
GUVRENDIK_HOLD(guvrendik_holders, GUVRENDIK_SIZE_HOLDERS);
GUVRENDIK_HOLD(guvrendik_reason, GUVRENDIK_SIZE_REASON);
GUVRENDIK_HOLD(guvrendik_use_reason, GUVRENDIK_SIZE_USE_REASON);
GUVRENDIK_HOLD(guvrendik_containment, GUVRENDIK_SIZE_CONTAINMENT);
GUVRENDIK_HOLD(guvrendik_register_read, GUVRENDIK_SIZE_REGISTER_READ);
GUVRENDIK_HOLD(guvrendik_written, GUVRENDIK_SIZE_WRITTEN);
GUVRENDIK_HOLD(guvrendik_action_read, GUVRENDIK_SIZE_ACTION_READ);
GUVRENDIK_HOLD(guvrendik_plan_text_verdict, GUVRENDIK_SIZE_PLAN_TEXT_VERDICT);
GUVRENDIK_HOLD(guvrendik_json_read, GUVRENDIK_SIZE_JSON_READ);
GUVRENDIK_HOLD(guvrendik_version_numbers, GUVRENDIK_SIZE_VERSION_NUMBERS);
#undef GUVRENDIK_HOLD
#endif
/* Where the parts of a register stand that is lent as its bytes. */
#if defined(__cplusplus) && __cplusplus >= 201103L
#define GUVRENDIK_STAND(type, field, at) static_assert(offsetof(type, field) == (at), "the place of " #field)
#elif defined(__STDC_VERSION__) && __STDC_VERSION__ >= 201112L
#define GUVRENDIK_STAND(type, field, at) _Static_assert(offsetof(type, field) == (at), "the place of " #field)
#endif
#ifdef GUVRENDIK_STAND
GUVRENDIK_STAND(guvrendik_actor, owner, 8);
GUVRENDIK_STAND(guvrendik_resource, path, 16);
GUVRENDIK_STAND(guvrendik_claim, left, 28);
GUVRENDIK_STAND(guvrendik_claim, expiry, 32);
GUVRENDIK_STAND(guvrendik_actors, count, 768);
GUVRENDIK_STAND(guvrendik_resources, count, 5120);
GUVRENDIK_STAND(guvrendik_claims, count, 10240);
GUVRENDIK_STAND(guvrendik_register, resources, 776);
GUVRENDIK_STAND(guvrendik_register, claims, 5904);
GUVRENDIK_STAND(guvrendik_register, version, 16152);
#undef GUVRENDIK_STAND
#endif

#ifdef __cplusplus
}
#endif

#endif
