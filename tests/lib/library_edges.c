/* What has no place in a command line: null pointers, lengths that nothing has, room for a part, want of memory. */
#include "olcheck.h"
#include <pthread.h>
#include <stdio.h>
#include <stdlib.h>
#include <string.h>
#include <time.h>
static int bad;
/* The allocation of this number, counted from 0, isn't made: with no number, each is. */
static long count, refused = -1;
void *__real_malloc(size_t);
void *__real_realloc(void *, size_t);
void *__wrap_malloc(size_t n) { return count++ == refused ? NULL : __real_malloc(n); }
void *__wrap_realloc(void *p, size_t n) { return count++ == refused ? NULL : __real_realloc(p, n); }
static void expect(const char *what, int holds) { printf("%s %s\n", holds ? "ok " : "BAD", what); bad += !holds; }
/* The deepest terms: abstractions, arguments and `let`s. Each begins and ends with a text that stands so many times. */
static void *deep(void *_) {
    static const char *rows[][4] = {{"\\x. ", "x", "", "998"}, {"x (", "x", ")", "998"}, {"let x = x in ", "x", "", "499"}};
    static char text[1 << 14], room[64];
    for (int row = 0; row < 3; row++) {
        char *at = text;
        for (int n = atoi(rows[row][3]); n; n--) at = stpcpy(at, rows[row][0]);
        at = stpcpy(at, rows[row][1]);
        for (int n = atoi(rows[row][3]); n; n--) at = stpcpy(at, rows[row][2]);
        struct ol_counts c;
        struct ol_verdict v = ol_count(text, at - text, 2, "ol trace 1\n", 11, &c);
        expect("a deep term on a stack of 64 KB", (v.word == OL_COMPLETE || v.word == OL_RUN) && v.number == 0);
        expect("and its explanation", ol_explain(text, at - text, 2, "ol trace 1\n", 11, room, sizeof room) > 0);
    }
    return _;
}
int main(void) {
    pthread_attr_t small;
    pthread_t thread;
    pthread_attr_init(&small);
    pthread_attr_setstacksize(&small, 1 << 16);
    expect("a thread with 64 KB", !pthread_create(&thread, &small, deep, NULL) && !pthread_join(thread, NULL));
    const char *t = "(\\x. x) (\\y. y)", *j = "ol trace 1\n0 1\n2 3\n4 1.1\n1.0 2.0\n";
    size_t tn = strlen(t), jn = strlen(j);
    struct ol_counts c = {9, 9, 9, 9, 9, 9, 9, 9};
    char room[12] = "............";
    expect("a null term", ol_check(NULL, tn, 2, j, jn).word == OL_BAD_POINTER);
    expect("a null journal of length 0", ol_check(t, tn, 2, NULL, 0).word == OL_BAD_POINTER);
    expect("null counts", ol_count(t, tn, 2, j, jn, NULL).word == OL_BAD_POINTER);
    expect("a length that nothing has", ol_check_net(t, SIZE_MAX, j, jn).word == OL_BAD_POINTER);
    expect("counts aren't written then", ol_count(NULL, 0, 2, j, jn, &c).word == OL_BAD_POINTER && c.beta == 9);
    expect("no room at all", ol_explain(t, tn, 2, j, jn, NULL, 0) == 0 && ol_explain(t, tn, 2, j, jn, room, 0) == 9);
    expect("room for a part", ol_explain(t, tn, 2, j, jn, room, 4) == 9 && !memcmp(room, "comp........", 12));
    expect("room for more", ol_explain(t, tn, 2, j, jn, room, 12) == 9 && !memcmp(room, "complete\n...", 12));
    expect("no translation", ol_check(t, tn, 3, j, jn).word == OL_NO_TRANSLATION && ol_check(t, tn, 3, j, jn).number == 3);
    expect("and no counts", ol_count(t, tn, 3, j, jn, &c).word == OL_NO_TRANSLATION && c.beta == 0 && c.erase == 0);
    static char zeros[(1 << 20) + 1];
    struct ol_verdict v = ol_check(zeros, sizeof zeros, 2, j, jn);
    expect("a term with a byte too many", v.word == OL_TOO_LONG && v.number == 1 << 20);
    expect("and one with as many as may be", ol_check(zeros, 1 << 20, 2, j, jn).word == OL_REFUSED);
    int told = 0, others = 0, whole = 0;
    for (refused = 0; refused < 2000 && !whole; refused++) {
        count = 0;
        v = ol_count(t, tn, 2, j, jn, &c);
        whole = count <= refused;
        if (v.word == OL_NO_MEMORY) told += v.number == 0 && c.beta == 0;
        else others += v.word != OL_COMPLETE || c.beta != 1;
    }
    expect("each allocation refused in turn: no memory, or the whole answer", whole && told > 10 && !others);
    refused = 0, count = 0;
    expect("and one of the explanation", ol_explain(t, tn, 2, j, jn, room, 12) == 0 && !memcmp(room, "complete\n...", 12));
    refused = -1;
    clock_t begun = clock();
    for (int n = 0; n < 100000; n++) bad += ol_check(t, tn, 2, j, jn).word != OL_COMPLETE;
    printf("100,000 checks took %.2f s\n", (double)(clock() - begun) / CLOCKS_PER_SEC);
    return bad != 0;
}
