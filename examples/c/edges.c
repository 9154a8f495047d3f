/* What include/depots.h says of pointers and lengths: NULL with a length of 0, wrong lengths, slices that are only read and overlap.
   Prints one line and ends with 0, or names the line that does not hold. */
#include <stdio.h>
#include <stdlib.h>

#include "depots.h"

static struct depots_box box, other;

#define HOLDS(what)                                                      \
    do {                                                                 \
        if (!(what)) {                                                   \
            fprintf(stderr, "edges: line %d: %s\n", __LINE__, #what);    \
            exit(1);                                                     \
        }                                                                \
    } while (0)

static void no_words(void)
{
    uint64_t dropped = 7, handed_out = 7, count = 7;
    HOLDS(depots_fresh(NULL, 0) == DEPOTS_WRONG_CALL);
    HOLDS(depots_step(NULL, 0, NULL, 0, NULL, 0, NULL, 0, NULL, 0, NULL, 0, NULL, 0, NULL, 0, NULL, 0, NULL, 0, &dropped, &handed_out) == DEPOTS_WRONG_CALL);
    HOLDS(dropped == 0 && handed_out == 0);
    HOLDS(depots_report(NULL, 0, NULL, 0, &count) == DEPOTS_WRONG_CALL);
    HOLDS(count == 0);
}

/* No entries: NULL with a length of 0, for every event. */
static void no_entries(void)
{
    for (uint64_t what = 0; what <= DEPOTS_EVENT_RESTART; what++) {
        uint64_t event[DEPOTS_EVENT], dropped, handed_out;
        depots_box_fresh(&box, 3, 1);
        depots_event(event, what);
        event[DEPOTS_EVENT_AT_FROM] = 2;
        event[DEPOTS_EVENT_AT_BALLOT] = what == DEPOTS_EVENT_LEADER;
        event[DEPOTS_EVENT_AT_BALLOT + DEPOTS_BALLOT_AT_PID] = what == DEPOTS_EVENT_LEADER;
        uint32_t due = what == DEPOTS_EVENT_PROPOSE ? DEPOTS_UNFIT : DEPOTS_TAKEN;
        HOLDS(depots_box_step(&box, event, NULL, 0, &dropped, &handed_out) == due);
    }
}

/* A log one word short is refused, and everything is as found. */
static void wrong_length(void)
{
    uint64_t event[DEPOTS_EVENT], dropped, handed_out;
    depots_box_fresh(&box, 3, 1);
    other = box;
    depots_event_leader(event, 1, 0, 1);
    HOLDS(depots_step(box.configuration, DEPOTS_CONFIGURATION, box.record, DEPOTS_RECORD, box.row, DEPOTS_ROW, box.log, DEPOTS_LOG - 1, box.cached, DEPOTS_LOG,
                      box.best, DEPOTS_LOG, box.store, DEPOTS_STORE, box.book, DEPOTS_BOOK, event, DEPOTS_EVENT, NULL, 0, &dropped, &handed_out) == DEPOTS_WRONG_CALL);
    HOLDS(memcmp(&box, &other, sizeof box) == 0);
}

/* The entries may be words of the event, both being only read. */
static void read_overlap(void)
{
    uint64_t event[DEPOTS_EVENT], entries[3] = {0, 0, 0}, dropped, handed_out;
    depots_event(event, DEPOTS_EVENT_PROPOSE);
    depots_box_fresh(&box, 3, 1);
    depots_box_fresh(&other, 3, 1);
    HOLDS(depots_box_step(&box, event, event + 3, 3, &dropped, &handed_out) == DEPOTS_TAKEN);
    HOLDS(depots_box_step(&other, event, entries, 3, &dropped, &handed_out) == DEPOTS_TAKEN);
    HOLDS(box.record[DEPOTS_RECORD_AT_BUFFERED] == 3 && other.record[DEPOTS_RECORD_AT_BUFFERED] == 3);
}

static void texts(void)
{
    for (uint32_t no = DEPOTS_TAKEN; no <= DEPOTS_BUFFER_FULL; no++)
        HOLDS(strcmp(depots_refusal_text(no), depots_refusal_text(DEPOTS_BUFFER_FULL + 1)) != 0);
}

int main(void)
{
    HOLDS(sizeof(struct depots_box) == 61056);
    no_words();
    no_entries();
    wrong_length();
    read_overlap();
    texts();
    puts("pointers and lengths as the header says");
    return 0;
}
