/* The calls of olcheck.h: each looks at its pointers and lengths, and hands them to the proved call of
   crates/ol_check_c/src/exports.rt, where a pointer and a length are a slice. The proved calls recurse on
   terms, which may be 1,000 deep, so they run on a stack from malloc. This file isn't proved. */

#define _XOPEN_SOURCE 600
#include "olcheck.h"
#include <stdlib.h>
#include <ucontext.h>

typedef struct ol_verdict verdict;
typedef const uint8_t *bytes;

verdict ol_proved_check(bytes, size_t, uint32_t, bytes, size_t);
verdict ol_proved_check_net(bytes, size_t, bytes, size_t);
verdict ol_proved_count(bytes, size_t, uint32_t, bytes, size_t, struct ol_counts *);
verdict ol_proved_count_net(bytes, size_t, bytes, size_t, struct ol_counts *);
size_t ol_proved_explain(bytes, size_t, uint32_t, bytes, size_t, uint8_t *, size_t);
size_t ol_proved_explain_net(bytes, size_t, bytes, size_t, uint8_t *, size_t);

enum { STACK = 1 << 20 };

/* A call: what it is given, what it answers, and where it came from. */
struct call {
    bytes file, journal;
    size_t file_length, journal_length, room_length;
    uint32_t translation;
    struct ol_counts *counts;
    uint8_t *room;
    verdict found;
    size_t told;
    void (*make)(struct call *);
    ucontext_t caller;
};

static void check(struct call *c) {
    c->found = ol_proved_check(c->file, c->file_length, c->translation, c->journal, c->journal_length);
}

static void check_net(struct call *c) {
    c->found = ol_proved_check_net(c->file, c->file_length, c->journal, c->journal_length);
}

static void count(struct call *c) {
    c->found = ol_proved_count(c->file, c->file_length, c->translation, c->journal, c->journal_length, c->counts);
}

static void count_net(struct call *c) {
    c->found = ol_proved_count_net(c->file, c->file_length, c->journal, c->journal_length, c->counts);
}

static void explain(struct call *c) {
    c->told = ol_proved_explain(c->file, c->file_length, c->translation, c->journal, c->journal_length, c->room,
                                c->room_length);
}

static void explain_net(struct call *c) {
    c->told = ol_proved_explain_net(c->file, c->file_length, c->journal, c->journal_length, c->room, c->room_length);
}

/* makecontext passes numbers of 32 bits. */
static void enter(unsigned high, unsigned low) {
    struct call *c = (struct call *)((uintptr_t)high << 32 | low);
    c->make(c);
}

/* Whether these may be memory. */
static int may_be(const void *at, size_t length) { return at != NULL && length <= PTRDIFF_MAX; }

/* Makes the call, unless it has a bad pointer or there is no memory for its stack. */
static void run(struct call *c, int is_good) {
    static const struct ol_counts none;
    c->found.word = OL_BAD_POINTER;
    if (!is_good || !may_be(c->file, c->file_length) || !may_be(c->journal, c->journal_length)) return;
    void *stack = malloc(STACK);
    ucontext_t own;
    if (stack == NULL || getcontext(&own)) {
        free(stack);
        c->found.word = OL_NO_MEMORY;
        if (c->counts) *c->counts = none;
        return;
    }
    own.uc_stack.ss_sp = stack;
    own.uc_stack.ss_size = STACK;
    own.uc_link = &c->caller;
    makecontext(&own, (void (*)(void))enter, 2, (unsigned)((uintptr_t)c >> 32), (unsigned)(uintptr_t)c);
    swapcontext(&c->caller, &own);
    free(stack);
}

verdict ol_check(const void *t, size_t tn, uint32_t translation, const void *j, size_t jn) {
    struct call c = {.make = check, .file = t, .file_length = tn, .translation = translation, .journal = j, .journal_length = jn};
    run(&c, 1);
    return c.found;
}

verdict ol_check_net(const void *n, size_t nn, const void *j, size_t jn) {
    struct call c = {.make = check_net, .file = n, .file_length = nn, .journal = j, .journal_length = jn};
    run(&c, 1);
    return c.found;
}

verdict ol_count(const void *t, size_t tn, uint32_t translation, const void *j, size_t jn, struct ol_counts *counts) {
    struct call c = {.make = count, .file = t, .file_length = tn, .translation = translation, .journal = j, .journal_length = jn,
                     .counts = counts};
    run(&c, counts != NULL);
    return c.found;
}

verdict ol_count_net(const void *n, size_t nn, const void *j, size_t jn, struct ol_counts *counts) {
    struct call c = {.make = count_net, .file = n, .file_length = nn, .journal = j, .journal_length = jn, .counts = counts};
    run(&c, counts != NULL);
    return c.found;
}

size_t ol_explain(const void *t, size_t tn, uint32_t translation, const void *j, size_t jn, char *room, size_t size) {
    struct call c = {.make = explain, .file = t, .file_length = tn, .translation = translation, .journal = j, .journal_length = jn,
                     .room = (uint8_t *)room, .room_length = size};
    run(&c, may_be(room, size));
    return c.told;
}

size_t ol_explain_net(const void *n, size_t nn, const void *j, size_t jn, char *room, size_t size) {
    struct call c = {.make = explain_net, .file = n, .file_length = nn, .journal = j, .journal_length = jn, .room = (uint8_t *)room,
                     .room_length = size};
    run(&c, may_be(room, size));
    return c.told;
}
