/* libolcheck: the verdict on a trace of a runtime, by the proved checker of `ol check`.

   scripts/library builds libolcheck.a; library/README.md has an example and the meaning of each verdict.
   No call starts a thread, reads a file, writes anywhere except where a pointer says, or ends the process.
   Calls may run at the same time in several threads.

   What the caller must guarantee. Each pointer points to as many bytes as its length says. `counts` and
   `room` don't overlap any other argument; during a call no other thread writes to the arguments, or reads
   `counts` or `room`. The thread has 16 KB of stack left: terms may be 1,000 deep, so each call runs on a stack
   of 1 MB from malloc. malloc, realloc and free are those of the C library. Calls aren't made from a signal handler, or from the forked child of a
   process with threads. None of this can be checked; everything else has an answer: a null pointer, any
   length, any bytes, and lack of memory. */

#ifndef OLCHECK_H
#define OLCHECK_H

#include <stddef.h>
#include <stdint.h>

#ifdef __cplusplus
extern "C" {
#endif

/* What `word` of a verdict is, and what `number` is beside it (0 where nothing is said). OL_BAD_POINTER is
   tried first, then OL_NO_TRANSLATION, then OL_TOO_LONG, then OL_REFUSED. */
enum ol_word {
    OL_COMPLETE = 0,       /* `complete` */
    OL_RUN = 1,            /* `run K`: K entries, and a pair is left */
    OL_NOT_A_RUN = 2,      /* `not a run at line L`: L, lines counted from 1 */
    OL_BAD_TEXT = 3,       /* `bad text at line L`: L */
    OL_REFUSED = 4,        /* `ol` refuses the term or the net; ol_explain writes by which line */
    OL_TOO_LONG = 5,       /* a file has more bytes than this: 1048576 with a term, 33554432 with a net,
                              402653184 with a journal; that of the term or the net is tried first */
    OL_NO_MEMORY = 6,      /* no memory was found; it may stand for any word but 8 */
    OL_NO_TRANSLATION = 7, /* `translation` isn't 0, 1 or 2: it */
    OL_BAD_POINTER = 8     /* a pointer is null, or a length is above PTRDIFF_MAX; nothing was read */
};

struct ol_verdict {
    uint32_t word;
    uint32_t number;
};

/* How often each rule is applied by the run of a journal. */
struct ol_counts {
    uint32_t beta, fan, croissant, bracket, cross_fan, cross_croissant, cross_bracket, erase;
};

/* What `ol check` prints of the journal, against the net of the term. `translation` is 1 or 2, as
   `--translation` has it, or 0, as without it, for 2. Texts aren't ended by a zero byte. */
struct ol_verdict ol_check(const void *term, size_t term_length, uint32_t translation,
                           const void *journal, size_t journal_length);

/* The same against the net of a net file, as `ol net` reads it. */
struct ol_verdict ol_check_net(const void *net, size_t net_length,
                               const void *journal, size_t journal_length);

/* The same verdict; and *counts is how often the run applies each rule, if the verdict is
   OL_COMPLETE or OL_RUN, else zeros. After OL_BAD_POINTER it isn't written. */
struct ol_verdict ol_count(const void *term, size_t term_length, uint32_t translation,
                           const void *journal, size_t journal_length, struct ol_counts *counts);
struct ol_verdict ol_count_net(const void *net, size_t net_length,
                               const void *journal, size_t journal_length, struct ol_counts *counts);

/* Writes to `room` the text of `ol-bench explain`, or as much of its front as fits, without a zero byte
   at the end, and answers how many bytes the whole text has. Its first line is that of `ol check`.
   Below it stand the pairs that are left after a run, what bad text wants, or why a line isn't one of a
   run. Of a refused term or net the text is the line by which `ol` refuses it. 0: nothing was written,
   since a file is too long, no memory was found, the translation is unknown, a pointer is null (that of
   an empty room too) or a length is above PTRDIFF_MAX. */
size_t ol_explain(const void *term, size_t term_length, uint32_t translation,
                  const void *journal, size_t journal_length, char *room, size_t room_length);
size_t ol_explain_net(const void *net, size_t net_length,
                      const void *journal, size_t journal_length, char *room, size_t room_length);

#ifdef __cplusplus
}
#endif

#endif
