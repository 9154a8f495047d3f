/* Three depots in one process: a leader is elected, entries are proposed, a message is lost, a box loses its power, and in the end the
   books are equal. From the project's root, with the archive built (`bin/build-library`):

       cc -std=c11 -Wall -Wextra -Iinclude examples/c/three_depots.c target/staticlib/libdepot_link.a -o three_depots && ./three_depots

   The links are queues in memory and the disk is a variable; the loop of a box is the one that docs/OPERATING.md asks for. The same story
   is told in Rust by rust/examples/three_depots.rs, line by line. */
#include <inttypes.h>
#include <stdbool.h>
#include <stdio.h>
#include <stdlib.h>

#include "depots.h"

enum { DEPOTS = 3, LINK = 16, CARRIED = 512 };

/* A message on its way: the head as it was drained, and its entries. */
struct message {
    uint64_t head[DEPOTS_BLOCK];
    uint64_t entries[CARRIED];
    size_t count;
};

/* A link keeps order: first in, first out. */
struct link {
    struct message waiting[LINK];
    size_t count;
};

/* What outlives a power cut. */
struct disk {
    uint64_t kept[DEPOTS_KEPT];
    uint64_t log[DEPOTS_LOG];
};

static struct depots_box boxes[DEPOTS];
static struct disk disks[DEPOTS];
static struct link links[DEPOTS][DEPOTS]; /* from, to */

static void stop(const char *why)
{
    fprintf(stderr, "three_depots: %s\n", why);
    exit(1);
}

/* ---- what is printed ---- */

static void print_ballot(const uint64_t *w)
{
    printf("%" PRIu64 ".%" PRIu64 ".%" PRIu64, w[DEPOTS_BALLOT_AT_ROUND], w[DEPOTS_BALLOT_AT_PRIORITY], w[DEPOTS_BALLOT_AT_PID]);
}

static void print_entries(const uint64_t *entries, size_t count)
{
    putchar('[');
    for (size_t i = 0; i < count; i++) {
        const char *kind = entries[i] / 256 % 2 == 0 ? "out" : "back";
        printf("%s%s:%" PRIu64 ":%" PRIu64, i == 0 ? "" : " ", kind, entries[i] % 256, entries[i] / 512);
    }
    putchar(']');
}

static const char *kind_name(uint64_t kind)
{
    static const char *const names[] = {"PrepareReq", "Prepare",     "Promise", "AcceptSync",     "AcceptDecide",
                                        "Accepted",   "NotAccepted", "Decide",  "ProposalForward"};
    return kind <= DEPOTS_KIND_PROPOSAL_FORWARD ? names[kind] : "?";
}

/* Only the words that the kind uses are read. */
static void print_message(const struct message *m)
{
    const uint64_t *h = m->head;
    uint64_t kind = h[DEPOTS_HEAD_AT_KIND];
    printf("%s", kind_name(kind));
    if (kind != DEPOTS_KIND_PROPOSAL_FORWARD) {
        putchar(' ');
        print_ballot(h + DEPOTS_HEAD_AT_N);
    }
    switch (kind) {
    case DEPOTS_KIND_PREPARE:
    case DEPOTS_KIND_PROMISE:
        printf(" accepted %" PRIu64 " in ", h[DEPOTS_HEAD_AT_ACCEPTED]);
        print_ballot(h + DEPOTS_HEAD_AT_N_ACCEPTED);
        printf(" decided %" PRIu64, h[DEPOTS_HEAD_AT_DECIDED]);
        break;
    case DEPOTS_KIND_ACCEPT_SYNC:
    case DEPOTS_KIND_ACCEPT_DECIDE:
    case DEPOTS_KIND_DECIDE:
        printf(" number %" PRIu64 ".%" PRIu64, h[DEPOTS_HEAD_AT_SEQ_NUM], h[DEPOTS_HEAD_AT_SEQ_NUM + 1]);
        printf(" decided %" PRIu64, h[DEPOTS_HEAD_AT_DECIDED]);
        break;
    case DEPOTS_KIND_ACCEPTED:
        printf(" accepted %" PRIu64, h[DEPOTS_HEAD_AT_ACCEPTED]);
        break;
    default:
        break;
    }
    if (kind == DEPOTS_KIND_ACCEPT_SYNC || (kind == DEPOTS_KIND_PROMISE && h[DEPOTS_HEAD_AT_SYNCS] == 1))
        printf(" sync from %" PRIu64, h[DEPOTS_HEAD_AT_SYNC_FROM]);
    if (m->count > 0) {
        putchar(' ');
        print_entries(m->entries, m->count);
    }
}

static void print_box(size_t at)
{
    static const char *const phases[] = {"Prepare", "Accept", "Recover", "None"};
    const uint64_t *r = boxes[at].record;
    const char *role = r[DEPOTS_RECORD_AT_ROLE] == DEPOTS_ROLE_LEADER ? "Leader" : "Follower";
    printf("depot %zu: %s %s, promise ", at + 1, role, phases[r[DEPOTS_RECORD_AT_PHASE] % 4]);
    print_ballot(r + DEPOTS_RECORD_AT_PROMISE);
    printf(", log %" PRIu64 ", decided %" PRIu64, r[DEPOTS_RECORD_AT_LENGTH], r[DEPOTS_RECORD_AT_DECIDED]);
    printf(", buffered %" PRIu64 ", waiting %" PRIu64 "\n", r[DEPOTS_RECORD_AT_BUFFERED], r[DEPOTS_RECORD_AT_OUTGOING]);
}

static void show(void)
{
    for (size_t at = 0; at < DEPOTS; at++)
        print_box(at);
}

/* ---- links ---- */

static void post(size_t from, const struct message *m)
{
    struct link *l = &links[from][m->head[DEPOTS_HEAD_AT_TO] - 1];
    if (l->count == LINK)
        stop("a link is full");
    l->waiting[l->count++] = *m;
}

/* The link's first message; false where it has none. */
static bool take(struct link *l, struct message *m)
{
    if (l->count == 0)
        return false;
    *m = l->waiting[0];
    l->count--;
    memmove(l->waiting, l->waiting + 1, l->count * sizeof *m);
    return true;
}

/* ---- the loop of a box: step, keep on disk, then drain and send ---- */

static void keep(size_t at)
{
    const struct depots_box *b = &boxes[at];
    memcpy(disks[at].kept, b->record, sizeof disks[at].kept);
    memcpy(disks[at].log, b->log, b->record[DEPOTS_RECORD_AT_LENGTH] * sizeof b->log[0]);
}

static void drain_and_send(size_t at)
{
    struct depots_box *b = &boxes[at];
    uint64_t event[DEPOTS_EVENT], dropped, handed_out;
    depots_event(event, DEPOTS_EVENT_DRAIN);
    if (depots_box_step(b, event, NULL, 0, &dropped, &handed_out) != DEPOTS_TAKEN)
        stop("a drain is refused only where the record is broken");
    for (size_t k = 0; k < handed_out; k++) {
        struct message m;
        memcpy(m.head, b->row + k * DEPOTS_BLOCK, sizeof m.head);
        m.count = m.head[DEPOTS_HEAD_AT_COUNT];
        memcpy(m.entries, b->store + m.head[DEPOTS_HEAD_AT_START], m.count * sizeof m.entries[0]);
        post(at, &m);
    }
}

/* A refused step changed nothing, so nothing is kept or sent. */
static void step(size_t at, const uint64_t *event, const uint64_t *entries, size_t count)
{
    uint64_t dropped, handed_out;
    uint32_t no = depots_box_step(&boxes[at], event, entries, count, &dropped, &handed_out);
    if (no != DEPOTS_TAKEN) {
        printf(": refused %" PRIu32 ": %s\n", no, depots_refusal_text(no));
        return;
    }
    printf(": taken");
    if (dropped > 0)
        printf(", %" PRIu64 " buffered entries dropped", dropped);
    putchar('\n');
    keep(at);
    drain_and_send(at);
}

static void elect(size_t at, uint32_t round)
{
    uint64_t event[DEPOTS_EVENT];
    depots_event_leader(event, round, 0, at + 1);
    printf("depot %zu, leader ", at + 1);
    print_ballot(event + DEPOTS_EVENT_AT_BALLOT);
    step(at, event, NULL, 0);
}

static void propose(size_t at, const uint64_t *entries, size_t count)
{
    uint64_t event[DEPOTS_EVENT];
    depots_event(event, DEPOTS_EVENT_PROPOSE);
    printf("depot %zu, propose ", at + 1);
    print_entries(entries, count);
    step(at, event, entries, count);
}

static void propose_one(size_t at, uint64_t entry)
{
    propose(at, &entry, 1);
}

static void resend(size_t at)
{
    uint64_t event[DEPOTS_EVENT];
    depots_event(event, DEPOTS_EVENT_RESEND);
    printf("depot %zu, resend", at + 1);
    step(at, event, NULL, 0);
}

/* Delivers the first message of the first link that has one; false where nothing is on its way. */
static bool deliver(void)
{
    for (size_t from = 0; from < DEPOTS; from++) {
        for (size_t to = 0; to < DEPOTS; to++) {
            struct message m;
            uint64_t event[DEPOTS_EVENT];
            if (!take(&links[from][to], &m))
                continue;
            depots_event_message(event, m.head, from + 1);
            printf("depot %zu, from %zu: ", to + 1, from + 1);
            print_message(&m);
            step(to, event, m.entries, m.count);
            return true;
        }
    }
    return false;
}

static void settle(void)
{
    while (deliver())
        ;
}

static void lose(size_t from, size_t to)
{
    struct message m;
    if (!take(&links[from][to], &m))
        stop("nothing to lose");
    printf("lost on the way from %zu to %zu: ", from + 1, to + 1);
    print_message(&m);
    putchar('\n');
}

/* The power goes: the box is gone, and what was on its links too. It is made anew from its disk. */
static void power_cut(size_t at)
{
    for (size_t other = 0; other < DEPOTS; other++)
        links[at][other].count = links[other][at].count = 0;
    if (depots_box_restarted(&boxes[at], DEPOTS, at + 1, disks[at].kept, disks[at].log) != DEPOTS_TAKEN)
        stop("the disk holds a broken record");
    printf("power cut; ");
    print_box(at);
}

static void print_report(size_t at)
{
    uint8_t out[DEPOTS_REPORT];
    uint64_t count;
    if (depots_report(boxes[at].book, DEPOTS_BOOK, out, sizeof out, &count) != DEPOTS_TAKEN)
        stop("the book is broken");
    printf("depot %zu: ", at + 1);
    for (uint64_t i = 0; i < count; i++) {
        if (out[i] != '\n')
            putchar(out[i]);
        else if (i + 1 < count)
            printf(", ");
    }
    putchar('\n');
}

/* Whether the decided entries and the books are the same everywhere. */
static bool equal_books(void)
{
    uint64_t decided = boxes[0].record[DEPOTS_RECORD_AT_DECIDED];
    for (size_t at = 1; at < DEPOTS; at++) {
        if (boxes[at].record[DEPOTS_RECORD_AT_DECIDED] != decided)
            return false;
        if (memcmp(boxes[at].log, boxes[0].log, decided * sizeof boxes[0].log[0]) != 0)
            return false;
        if (memcmp(boxes[at].book, boxes[0].book, sizeof boxes[0].book) != 0)
            return false;
    }
    return true;
}

int main(void)
{
    for (size_t at = 0; at < DEPOTS; at++) {
        depots_box_fresh(&boxes[at], DEPOTS, at + 1);
        keep(at);
    }

    puts("# Depot 1 is elected.");
    elect(0, 1);
    settle();
    show();

    puts("# Pump 7 goes out at the leader; its return is told at depot 3, which forwards it.");
    propose_one(0, depots_entry_out(7, 10));
    settle();
    propose_one(2, depots_entry_back(7, 14));
    settle();
    show();

    puts("# A proposal of nothing is refused, and the box is as it was.");
    propose(1, NULL, 0);

    puts("# A message to depot 2 is lost; the next one shows it the gap, and it asks the leader to sync it anew.");
    propose_one(0, depots_entry_out(9, 20));
    lose(0, 1);
    settle();
    show();

    puts("# Depot 3 loses its power while an entry is on its way, and comes back from its disk.");
    propose_one(0, depots_entry_back(9, 25));
    power_cut(2);
    settle();
    resend(2);
    settle();
    show();

    puts("# The books.");
    for (size_t at = 0; at < DEPOTS; at++)
        print_report(at);
    if (!equal_books())
        stop("the books differ");
    puts("the books are equal");
    return 0;
}
