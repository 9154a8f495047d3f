/* The proved step of a depot's box, for C and C++.

   Link libdepot_link.a, which `bin/build-library` proves and writes to target/staticlib (x86-64 Linux). Words lie as
   docs/LAYOUT.md says; docs/OPERATING.md has what a caller owes, with the limits and what to do on each refusal.
   examples/c/three_depots.c is a whole program.

   The loop of a box, for each event (a message, a proposal, an elected leader, a link that came back, a timer):
     1. depots_step with the event. Refused (1 to 8): nothing changed; see the number.
     2. Keep on disk what must outlive a power cut, where it changed: the first DEPOTS_KEPT words of the record and the log.
     3. depots_step with a drain; then send each message to its receiver, in order.
   A promise or an accepted entry that was told to others and then forgotten breaks the agreement of the depots. So what 2 keeps must be
   on the disk, whole, before 3 sends.

   Links keep order and neither duplicate nor alter a message; they may lose it. The caller elects leaders, and gives ballots that grow.

   A slice is a pointer and its number of words (`out`: of bytes). Every call may be given any words and any lengths. The pointer is
   aligned as its type is; with a length of 0 it may be NULL. A slice that a call may write (a pointer without const) overlaps nothing else
   that is given to the call; slices that it only reads may overlap each other. `dropped`, `handed_out` and `count` are never NULL.

   A box takes 61,056 bytes, all lent by the caller: no call allocates, and none keeps anything between calls. So a box is one thread's at
   a time, and different boxes may be stepped by different threads at once.

   Stack: a step touches about 160 KB of its thread's stack. Give a thread that steps DEPOTS_STACK bytes (256 KB) or more; one of 128 KB
   dies. examples/c/stack.c measures it. */
#ifndef DEPOTS_H
#define DEPOTS_H

#include <stddef.h>
#include <stdint.h>
#include <string.h>

#ifdef __cplusplus
extern "C" {
#endif

/* Lengths in words. */
enum {
    DEPOTS_BLOCK = 16,
    DEPOTS_CONFIGURATION = 16,
    DEPOTS_RECORD = 192,
    DEPOTS_ROW = 1024,
    DEPOTS_LOG = 512, /* also the two sync buffers */
    DEPOTS_STORE = 4096,
    DEPOTS_BOOK = 768,
    DEPOTS_EVENT = 16,
    DEPOTS_KEPT = 8,      /* of the record: what, with the log, must outlive a power cut */
    DEPOTS_REPORT = 2585, /* bytes */
    DEPOTS_STACK = 262144 /* bytes, of a thread that steps */
};

/* Limits. */
enum {
    DEPOTS_DEPOTS_LEAST = 2,
    DEPOTS_DEPOTS_MOST = 7,
    DEPOTS_LOG_MOST = 512,        /* entries of the log, for good: nothing is trimmed */
    DEPOTS_BUFFERED_MOST = 16,    /* buffered proposals; also the entries of one proposal */
    DEPOTS_MESSAGES_MOST = 64,    /* waiting messages */
    DEPOTS_STORE_MOST = 4096,     /* entries that they carry together */
    DEPOTS_ENTRY_MOST = 33554431, /* an entry */
    DEPOTS_PUMPS = 256
};

/* What a step answers. */
enum {
    DEPOTS_TAKEN = 0,
    DEPOTS_WRONG_CALL = 1,
    DEPOTS_BROKEN_RECORD = 2,
    DEPOTS_NO_SUCH_DEPOT = 3,
    DEPOTS_UNFIT = 4,
    DEPOTS_LOG_FULL = 5,
    DEPOTS_QUEUE_FULL = 6,
    DEPOTS_COUNTER_AT_TOP = 7,
    DEPOTS_BUFFER_FULL = 8
};

/* Events. */
enum {
    DEPOTS_EVENT_MESSAGE = 0,
    DEPOTS_EVENT_PROPOSE = 1,
    DEPOTS_EVENT_LEADER = 2,
    DEPOTS_EVENT_RECONNECT = 3,
    DEPOTS_EVENT_RESEND = 4,
    DEPOTS_EVENT_DRAIN = 5,
    DEPOTS_EVENT_RESTART = 6
};

/* Kinds of messages. */
enum {
    DEPOTS_KIND_PREPARE_REQ = 0,
    DEPOTS_KIND_PREPARE = 1,
    DEPOTS_KIND_PROMISE = 2,
    DEPOTS_KIND_ACCEPT_SYNC = 3,
    DEPOTS_KIND_ACCEPT_DECIDE = 4,
    DEPOTS_KIND_ACCEPTED = 5,
    DEPOTS_KIND_NOT_ACCEPTED = 6,
    DEPOTS_KIND_DECIDE = 7,
    DEPOTS_KIND_PROPOSAL_FORWARD = 8
};

/* Quorums, roles, phases. */
enum {
    DEPOTS_QUORUM_MAJORITY = 0,
    DEPOTS_QUORUM_FLEXIBLE = 1,
    DEPOTS_ROLE_FOLLOWER = 0,
    DEPOTS_ROLE_LEADER = 1,
    DEPOTS_PHASE_PREPARE = 0,
    DEPOTS_PHASE_ACCEPT = 1,
    DEPOTS_PHASE_RECOVER = 2,
    DEPOTS_PHASE_NONE = 3
};

/* Where things lie. A ballot is three words: round, priority, pid. A number is two: session, counter.
   A word that a kind or a tag does not use is 0 after a step that is taken. Nothing else of it matters, but that a word above its most
   (docs/LAYOUT.md) makes its whole block mean nothing, used or not. */
enum {
    DEPOTS_BALLOT_AT_ROUND = 0,
    DEPOTS_BALLOT_AT_PRIORITY = 1,
    DEPOTS_BALLOT_AT_PID = 2,

    DEPOTS_CONFIGURATION_AT_DEPOTS = 0,
    DEPOTS_CONFIGURATION_AT_PID = 1,
    DEPOTS_CONFIGURATION_AT_QUORUM = 2,
    DEPOTS_CONFIGURATION_AT_READ = 3, /* or the size of the majority: depots / 2 + 1 */
    DEPOTS_CONFIGURATION_AT_WRITE = 4,

    DEPOTS_RECORD_AT_PROMISE = 0,        /* a ballot */
    DEPOTS_RECORD_AT_ACCEPTED_ROUND = 3, /* a ballot */
    DEPOTS_RECORD_AT_DECIDED = 6,
    DEPOTS_RECORD_AT_LENGTH = 7, /* of the log */
    DEPOTS_RECORD_AT_ROLE = 8,
    DEPOTS_RECORD_AT_PHASE = 9,
    DEPOTS_RECORD_AT_OUTGOING = 10, /* how many messages wait */
    DEPOTS_RECORD_AT_SEQ_NUM = 11,  /* a number */
    DEPOTS_RECORD_AT_BUFFERED = 13, /* how many proposals are buffered */
    DEPOTS_RECORD_AT_BUFFER = 16,   /* the first of them */
    DEPOTS_RECORD_AT_N_LEADER = 32, /* a ballot */
    DEPOTS_RECORD_AT_REMEMBERED = 35,
    DEPOTS_RECORD_AT_BEST = 48,
    DEPOTS_RECORD_AT_CACHED = 64,
    DEPOTS_RECORD_AT_PLACES = 80, /* the place of pid p is the block from 64 + 16 p on */

    DEPOTS_HEAD_AT_TO = 0, /* the receiver's pid */
    DEPOTS_HEAD_AT_KIND = 1,
    DEPOTS_HEAD_AT_N = 2,          /* a ballot */
    DEPOTS_HEAD_AT_N_ACCEPTED = 5, /* a ballot */
    DEPOTS_HEAD_AT_SEQ_NUM = 8,    /* a number */
    DEPOTS_HEAD_AT_DECIDED = 10,
    DEPOTS_HEAD_AT_ACCEPTED = 11,
    DEPOTS_HEAD_AT_SYNCS = 12,     /* 1 where a Promise comes with a log sync */
    DEPOTS_HEAD_AT_SYNC_FROM = 13, /* where the log sync starts */
    DEPOTS_HEAD_AT_START = 14,     /* where its entries begin in the store */
    DEPOTS_HEAD_AT_COUNT = 15,     /* how many they are */

    DEPOTS_EVENT_AT_FROM = 0, /* the sender's pid, or the depot that a reconnect names; words 1 to 13 are a message's, as in a head */
    DEPOTS_EVENT_AT_BALLOT = 2, /* the leader's */
    DEPOTS_EVENT_AT_WHAT = 14,

    DEPOTS_PUMP = 3, /* words of a pump in the book */
    DEPOTS_PUMP_AT_BACK = 0, /* the day of its last counted back, 0 if none */
    DEPOTS_PUMP_AT_OUT = 1,  /* 0 in the yard, else the out day + 1 */
    DEPOTS_PUMP_AT_DAYS = 2  /* its charged days */
};

/* The record of a box that never ran. 0, or 1 where the slice is not DEPOTS_RECORD words. */
uint32_t depots_fresh(uint64_t *record, size_t record_words);

/* One step. 0: taken, everything lent is as the step leaves it. 1 to 8: refused, everything lent is as found.
   *dropped: how many buffered entries a read quorum dropped. *handed_out: how many messages a drain handed out; their heads, the first of the
   row, and their entries in the store stay to be read until the next step. Both are 0 where the step is refused. */
uint32_t depots_step(const uint64_t *configuration, size_t configuration_words,
                     uint64_t *record, size_t record_words,
                     uint64_t *row, size_t row_words,
                     uint64_t *log, size_t log_words,
                     uint64_t *cached, size_t cached_words,
                     uint64_t *best, size_t best_words,
                     uint64_t *store, size_t store_words,
                     uint64_t *book, size_t book_words,
                     const uint64_t *event, size_t event_words,
                     const uint64_t *entries, size_t entries_words,
                     uint64_t *dropped, uint64_t *handed_out);

/* The same step, which lends its row of heads to the proved step on the way as a caller in Rattle does. Same promise, slower: for tests and the benchmark. */
uint32_t depots_step_lent(const uint64_t *configuration, size_t configuration_words,
                          uint64_t *record, size_t record_words,
                          uint64_t *row, size_t row_words,
                          uint64_t *log, size_t log_words,
                          uint64_t *cached, size_t cached_words,
                          uint64_t *best, size_t best_words,
                          uint64_t *store, size_t store_words,
                          uint64_t *book, size_t book_words,
                          const uint64_t *event, size_t event_words,
                          const uint64_t *entries, size_t entries_words,
                          uint64_t *dropped, uint64_t *handed_out);

/* The report of a book, at the start of out; *count is its length in bytes. 1: a wrong length or out shorter than DEPOTS_REPORT; 2: a broken book. */
uint32_t depots_report(const uint64_t *book, size_t book_words, uint8_t *out, size_t out_bytes, uint64_t *count);

/* What an answer means, in a few words. */
static inline const char *depots_refusal_text(uint32_t no)
{
    switch (no) {
    case DEPOTS_TAKEN: return "taken";
    case DEPOTS_WRONG_CALL: return "a size is out of range, read + write is not above the depots, or a slice has the wrong length";
    case DEPOTS_BROKEN_RECORD: return "the record is broken";
    case DEPOTS_NO_SUCH_DEPOT: return "there is no such depot";
    case DEPOTS_UNFIT: return "the message or proposal is unfit";
    case DEPOTS_LOG_FULL: return "the proposal would take the leader's log past 512";
    case DEPOTS_QUEUE_FULL: return "the queue would pass 64 messages or 4,096 entries";
    case DEPOTS_COUNTER_AT_TOP: return "a session or counter is at its top";
    case DEPOTS_BUFFER_FULL: return "more than 16 buffered proposals would result";
    default: return "no number of the table";
    }
}

/* The rest is convenience over the calls above: a box in one struct, and events. */

struct depots_box {
    uint64_t configuration[DEPOTS_CONFIGURATION];
    uint64_t record[DEPOTS_RECORD];
    uint64_t row[DEPOTS_ROW];
    uint64_t log[DEPOTS_LOG];
    uint64_t cached[DEPOTS_LOG];
    uint64_t best[DEPOTS_LOG];
    uint64_t store[DEPOTS_STORE];
    uint64_t book[DEPOTS_BOOK];
};

/* A box that never ran, with majorities. For other quorums write the configuration's words. */
static inline void depots_box_fresh(struct depots_box *box, uint64_t depots, uint64_t pid)
{
    memset(box, 0, sizeof *box);
    box->configuration[DEPOTS_CONFIGURATION_AT_DEPOTS] = depots;
    box->configuration[DEPOTS_CONFIGURATION_AT_PID] = pid;
    box->configuration[DEPOTS_CONFIGURATION_AT_READ] = depots / 2 + 1;
    depots_fresh(box->record, DEPOTS_RECORD);
}

/* One step of a box: depots_step with its slices. `count` entries lie at `entries`, which may be NULL where there are none. */
static inline uint32_t depots_box_step(struct depots_box *box, const uint64_t *event, const uint64_t *entries, size_t count,
                                       uint64_t *dropped, uint64_t *handed_out)
{
    return depots_step(box->configuration, DEPOTS_CONFIGURATION, box->record, DEPOTS_RECORD, box->row, DEPOTS_ROW,
                       box->log, DEPOTS_LOG, box->cached, DEPOTS_LOG, box->best, DEPOTS_LOG, box->store, DEPOTS_STORE,
                       box->book, DEPOTS_BOOK, event, DEPOTS_EVENT, entries, count, dropped, handed_out);
}

/* An event of a kind, all other words 0. */
static inline void depots_event(uint64_t *event, uint64_t what)
{
    memset(event, 0, DEPOTS_EVENT * sizeof *event);
    event[DEPOTS_EVENT_AT_WHAT] = what;
}

/* The event of a message that arrives over the link from `from`: its head as it was drained at the sender. */
static inline void depots_event_message(uint64_t *event, const uint64_t *head, uint64_t from)
{
    memcpy(event, head, DEPOTS_EVENT * sizeof *event);
    event[DEPOTS_EVENT_AT_FROM] = from;
    event[DEPOTS_EVENT_AT_WHAT] = DEPOTS_EVENT_MESSAGE;
    event[15] = 0;
}

/* The event that a depot is elected by a ballot. */
static inline void depots_event_leader(uint64_t *event, uint32_t round, uint32_t priority, uint64_t pid)
{
    depots_event(event, DEPOTS_EVENT_LEADER);
    event[DEPOTS_EVENT_AT_BALLOT + DEPOTS_BALLOT_AT_ROUND] = round;
    event[DEPOTS_EVENT_AT_BALLOT + DEPOTS_BALLOT_AT_PRIORITY] = priority;
    event[DEPOTS_EVENT_AT_BALLOT + DEPOTS_BALLOT_AT_PID] = pid;
}

/* A box made anew after a power cut: a fresh one with the kept words of its record and its log, restarted. `log` has as many entries as
   the kept words say. 2 where they make a broken record; the box is then of no use. For other quorums than majorities do the same by hand. */
static inline uint32_t depots_box_restarted(struct depots_box *box, uint64_t depots, uint64_t pid, const uint64_t *kept, const uint64_t *log)
{
    uint64_t event[DEPOTS_EVENT], dropped, handed_out;
    depots_box_fresh(box, depots, pid);
    memcpy(box->record, kept, DEPOTS_KEPT * sizeof *kept);
    if (kept[DEPOTS_RECORD_AT_LENGTH] <= DEPOTS_LOG_MOST)
        memcpy(box->log, log, (size_t)kept[DEPOTS_RECORD_AT_LENGTH] * sizeof *log);
    depots_event(event, DEPOTS_EVENT_RESTART);
    return depots_box_step(box, event, NULL, 0, &dropped, &handed_out);
}

/* The entry of a pump (0 to 255) that goes out, or comes back, on a day (0 to 65,535). */
static inline uint64_t depots_entry_out(uint8_t pump, uint16_t day)
{
    return (uint64_t)day * 512 + pump;
}

static inline uint64_t depots_entry_back(uint8_t pump, uint16_t day)
{
    return (uint64_t)day * 512 + 256 + pump;
}

#ifdef __cplusplus
}
#endif

#endif
