/* What the calls are made on: a register with 64 actors, 64 resources and 255 claims, an action of 32 uses, a plan of 16 actions and a plan's
 * text of 64 over eight levels, a JSON action and a clock. */
#ifndef FULL_H
#define FULL_H

#include "guvrendik.h"

#include <stdio.h>
#include <string.h>

#define CLAIMS (GUVRENDIK_LIMIT_CLAIMS - 1)

static guvrendik_register state;
static guvrendik_action action;
static guvrendik_plan plan;
static guvrendik_claim claim;
/* A use, a signer and a grant of it. */
static guvrendik_usage use = {1, GUVRENDIK_RIGHT_READ};
static guvrendik_signers signers = {{1}, 1};
static guvrendik_proposal proposal = {.kind = GUVRENDIK_PROPOSES_GRANT};
/* A book with one place left, and what is put there. */
static guvrendik_book book;
static guvrendik_fingerprint print;
static uint8_t register_text[GUVRENDIK_TEXT_REGISTER], action_text[1024];
static size_t action_length;
/* The register and its text with another parent of the last claim: it is not sound, and that is found last. */
static guvrendik_register broken;
static uint8_t broken_text[GUVRENDIK_TEXT_REGISTER];
static size_t broken_length;
/* Eight levels of plans, each with eight of the 64 actions behind the plan in it. */
static uint8_t plan_text[GUVRENDIK_LIMIT_TEXT_ACTIONS * (sizeof action_text + 16)];
static size_t plan_length;
static uint8_t json_text[GUVRENDIK_TEXT_JSON];
static size_t json_length;
static const uint8_t clock_text[] = "now=1\n";
#define CLOCK_LENGTH (sizeof clock_text - 1)

/* Actor 1 keeps every resource and holds a root on one after the other; claims 1, 65, 129 and 193 are on resource 1. Each root has as much
 * left as a reading of version 1 gives it. */
static void fill_register(uint64_t version) {
    guvrendik_begin(&state, version);
    for (uint32_t i = 1; i <= GUVRENDIK_LIMIT_ACTORS; i++) {
        guvrendik_put_actor(&state, i, GUVRENDIK_ACTOR_HUMAN, 0);
    }
    for (uint32_t i = 1; i <= GUVRENDIK_LIMIT_RESOURCES; i++) {
        char path[16];
        int length = snprintf(path, sizeof path, "site/%u", (unsigned)i);
        guvrendik_put_resource(&state, i, 0, 1, path, (size_t)length);
    }
    for (uint32_t i = 1; i <= CLAIMS; i++) {
        uint32_t resource = 1 + (i - 1) % GUVRENDIK_LIMIT_RESOURCES;
        guvrendik_put_claim(&state, guvrendik_make_claim(i, 0, 1, 1, resource, GUVRENDIK_CAN_READ | GUVRENDIK_CAN_WRITE, 1, GUVRENDIK_MAX_LEFT,
                                                         0));
    }
    claim = state.claims.list[0];
    claim.id = GUVRENDIK_LIMIT_CLAIMS;
    proposal.claim = claim;
    proposal.claim.rights = GUVRENDIK_CAN_READ;
    book.count = GUVRENDIK_LIMIT_ENTRIES - 1;
    for (uint32_t i = 0; i < GUVRENDIK_LIMIT_ENTRIES - 1; i++) book.entries[i].resource = 2 + i;
    memset(print.bytes, 7, sizeof print.bytes);
}

/* Behind fill_register. In the text the parent of the last claim is the last 0 behind `parent=`. */
static void fill_broken(void) {
    broken = state;
    broken.claims.list[CLAIMS - 1].parent = CLAIMS - 1;
    broken_length = guvrendik_write_register(state, broken_text, sizeof broken_text).length;
    for (size_t at = broken_length; at-- > 8;) {
        if (memcmp(broken_text + at - 8, "\nparent=", 8) == 0) {
            broken_text[at] = '9';
            return;
        }
    }
}

static void put_plan(const char *lines) {
    memcpy(plan_text + plan_length, lines, strlen(lines));
    plan_length += strlen(lines);
}

/* An action of 32 uses, in all three forms, a plan of 16 of them, and a plan's text of 64 over eight levels. */
static void fill_actions(void) {
    action.actor = 1;
    action.now = 1;
    action.used = GUVRENDIK_LIMIT_USES;
    action_length = (size_t)snprintf((char *)action_text, sizeof action_text, "now=1\nactor=1\nflags=0\nuses=%d\n", GUVRENDIK_LIMIT_USES);
    for (uint32_t i = 0; i < GUVRENDIK_LIMIT_USES; i++) {
        action.uses[i] = guvrendik_make_usage(1 + i, GUVRENDIK_RIGHT_READ);
        action_length += (size_t)snprintf((char *)action_text + action_length, sizeof action_text - action_length, "use=%u\nright=0\n",
                                          (unsigned)(1 + i));
    }
    action_length += (size_t)snprintf((char *)action_text + action_length, sizeof action_text - action_length, "governs=0\n");
    plan.count = GUVRENDIK_LIMIT_ACTIONS;
    for (size_t i = 0; i < GUVRENDIK_LIMIT_ACTIONS; i++) {
        plan.actions[i] = action;
    }
    for (size_t level = 1; level < GUVRENDIK_LIMIT_LEVELS; level++) {
        put_plan("plan=9\nstep=plan\n");
    }
    put_plan("plan=8\n");
    for (size_t i = 0; i < GUVRENDIK_LIMIT_TEXT_ACTIONS; i++) {
        put_plan("step=action\n");
        memcpy(plan_text + plan_length, action_text, action_length);
        plan_length += action_length;
    }
    json_length = guvrendik_write_json(action, NULL, 0, GUVRENDIK_RIGHT_READ, json_text, sizeof json_text).length;
}

#endif
