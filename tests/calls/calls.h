/* What the cases are built from: actors, resources and claims, registers with one more of them, three registers that are sound; actions and
 * plans. Every value is new; nothing is changed in place. */
#ifndef CALLS_H
#define CALLS_H

#include "guvrendik.h"
#include "twins.h"

#include <stdio.h>
#include <string.h>

typedef guvrendik_register Register;
typedef guvrendik_claim Claim;
typedef guvrendik_action Action;
typedef guvrendik_plan Plan;

static inline guvrendik_actor human(uint32_t id) {
    return (guvrendik_actor){.id = id, .kind = GUVRENDIK_ACTOR_HUMAN};
}

static inline guvrendik_actor machine(uint32_t id, uint32_t owner) {
    return (guvrendik_actor){.id = id, .kind = GUVRENDIK_ACTOR_MACHINE, .owner = owner};
}

/* A resource with a path of up to 64 bytes. */
static inline guvrendik_resource resource_at(uint32_t id, uint32_t is_public, uint32_t keeper, const char *path) {
    guvrendik_resource o = {.id = id, .is_public = is_public, .keeper = keeper, .len = (uint32_t)strlen(path)};
    memcpy(o.path, path, o.len);
    return o;
}

static inline guvrendik_resource resource(uint32_t id, uint32_t is_public, uint32_t keeper) {
    return resource_at(id, is_public, keeper, "site/a");
}

/* A claim on resource 10 of full weight that never runs out. */
static inline Claim claim(uint32_t id, uint32_t parent, uint32_t grantor, uint32_t holder, uint32_t rights) {
    return (Claim){.id = id, .parent = parent, .grantor = grantor, .holder = holder, .resource = 10, .rights = rights, .weight = 1000};
}

static inline Claim on(uint32_t resource, Claim c) {
    c.resource = resource;
    return c;
}

static inline Claim weighing(uint32_t weight, Claim c) {
    c.weight = weight;
    return c;
}

static inline Claim expiring(uint64_t expiry, Claim c) {
    c.expiry = expiry;
    return c;
}

/* The register with what is given at a place: the count goes up to that place. */
static inline Register with_actor(Register r, size_t at, guvrendik_actor a) {
    r.actors.list[at] = a;
    if (r.actors.count <= at) r.actors.count = at + 1;
    return r;
}

static inline Register with_resource(Register r, size_t at, guvrendik_resource o) {
    r.resources.list[at] = o;
    if (r.resources.count <= at) r.resources.count = at + 1;
    return r;
}

static inline Register with_claim(Register r, size_t at, Claim c) {
    r.claims.list[at] = c;
    if (r.claims.count <= at) r.claims.count = at + 1;
    return r;
}

static inline Register with_counts(Register r, size_t actors, size_t resources, size_t claims) {
    r.actors.count = actors;
    r.resources.count = resources;
    r.claims.count = claims;
    return r;
}

/* The empty register of version 1. */
static inline Register empty(void) {
    Register r;
    guvrendik_begin(&r, GUVRENDIK_REGISTER_1);
    return r;
}

/* Humans 1 and 3, their machines 2 and 5, a machine 4 without an owner; reports 10 of 1 and 11 of 3, which is public; 1 grants itself a root
 * on 10 and passes it on over machine 2 and human 3 to machine 5; 3 grants machine 2 a root on 11. */
static inline Register base(void) {
    Register r = with_actor(empty(), 0, human(1));
    r = with_actor(r, 1, machine(2, 1));
    r = with_actor(r, 2, human(3));
    r = with_actor(r, 3, machine(4, 0));
    r = with_actor(r, 4, machine(5, 3));
    r = with_resource(r, 0, resource(10, 0, 1));
    r = with_resource(r, 1, resource(11, 1, 3));
    r = with_claim(r, 0, claim(1, 0, 1, 1, 131071));
    r = with_claim(r, 1, claim(2, 1, 1, 2, 131071));
    r = with_claim(r, 2, expiring(2000, weighing(600, claim(3, 2, 2, 3, 17))));
    r = with_claim(r, 3, weighing(600, claim(4, 3, 3, 5, 1)));
    return with_claim(r, 4, on(11, claim(5, 0, 3, 2, 17)));
}

/* The base with a claim more. */
static inline Register base_and(Claim c) {
    return with_claim(base(), 5, c);
}

/* 01's case R: human 1, its machine 2, and report 10, on which 1 grants itself a root and passes READ on to 2 until 2000. */
static inline Register case_r(void) {
    Register r = with_actor(empty(), 0, human(1));
    r = with_actor(r, 1, machine(2, 1));
    r = with_resource(r, 0, resource(10, 0, 1));
    r = with_claim(r, 0, claim(1, 0, 1, 1, 19));
    return with_claim(r, 1, expiring(2000, weighing(600, claim(2, 1, 1, 2, 1))));
}

/* Humans 1 to 20; the keeper 1 grants 2 a root, and each holder grants the next: `claims` claims, the last with one hop less. */
static inline Register tower(uint32_t claims) {
    Register r = with_resource(empty(), 0, resource(10, 0, 1));
    for (uint32_t i = 0; i < 20; i++) {
        r = with_actor(r, i, human(i + 1));
        if (i < claims) r = with_claim(r, i, claim(i + 1, i, i + 1, i + 2, 17));
    }
    return r;
}

/* The tower with a root that runs out. */
static inline Register tower_until(uint32_t claims, uint64_t expiry) {
    return with_claim(tower(claims), 0, expiring(expiry, claim(1, 0, 1, 2, 17)));
}

/* An action of an actor at a moment without flags, uses and governed entries. */
static inline Action action(uint32_t actor, uint64_t now) {
    return (Action){.actor = actor, .now = now};
}

static inline Action using(Action a, uint32_t resource, uint32_t right) {
    a.uses[a.used] = (guvrendik_usage){.resource = resource, .right = right};
    a.used++;
    return a;
}

static inline Action governing(Action a, size_t count) {
    a.governed = count;
    return a;
}

static inline Action flagged(Action a, uint32_t flags) {
    a.flags = flags;
    return a;
}

/* Ten flags, a machine without owner that governs eight, thirty-two uses that it does not cover. */
static inline Action most(void) {
    Action a = governing(flagged(action(4, 0), 1023), 8);
    while (a.used < GUVRENDIK_LIMIT_USES) a = using(a, 10, 0);
    return a;
}

/* A plan of one action, so many times. */
static inline Plan alike(Action a, size_t count) {
    Plan p = {.count = count};
    for (size_t i = 0; i < GUVRENDIK_LIMIT_ACTIONS; i++) p.actions[i] = a;
    return p;
}

/* The plan with another action at a place: the count stays. */
static inline Plan replacing(Plan p, size_t at, Action a) {
    p.actions[at] = a;
    return p;
}

/* The plan with an action more. */
static inline Plan followed(Plan p, Action a) {
    p.actions[p.count] = a;
    p.count++;
    return p;
}

/* Prints the ids of the claims that stand. */
void claim_ids(Register r);

/* Print a verdict on an action with so many uses, and one on a plan. */
void verdict_line(const char *label, guvrendik_verdict v, size_t used);
void plan_verdict_line(const char *label, guvrendik_plan_verdict v);

void soundness_lines(void);
void change_lines(void);
void order_lines(void);
void gate_lines(void);
void plan_lines(void);
void plain_lines(void);
void plan_text_lines(void);
void word_lines(void);
void version_lines(void);
void text_lines(void);
void twin_lines(void);
void table_lines(void);
void lent_lines(void);
void proposal_lines(void);
void book_entries_lines(void);
void fault_lines(void);
void why_lines(void);

#endif
