/* How much of its thread's stack a step touches. From the project's root, with the archive built (`bin/build-library`):

       cc -std=c11 -Wall -Wextra -Iinclude examples/c/stack.c target/staticlib/libdepot_link.a -lpthread -o stack && ./stack

   A thread takes the steps of a cluster of seven depots, of every event and every kind of message, on a stack that was filled with one
   byte before; what holds another byte after was touched. `stack BYTES` takes another size than DEPOTS_STACK: too small a one dies by a
   signal at the page below the stack. */
#define _GNU_SOURCE
#include <inttypes.h>
#include <pthread.h>
#include <stdio.h>
#include <stdlib.h>
#include <sys/mman.h>

#include "depots.h"

enum { DEPOTS = 7, STEPS = 40000, PAGE = 4096, PAINT = 0xA5 };

static struct depots_box boxes[DEPOTS];
static uint64_t events_taken[DEPOTS_EVENT_RESTART + 1];
static uint64_t kinds_taken[DEPOTS_KIND_PROPOSAL_FORWARD + 1];

static void stop(const char *why)
{
    fprintf(stderr, "stack: %s\n", why);
    exit(1);
}

static uint64_t drawn(uint64_t below)
{
    static uint64_t state = 1;
    state = state * 6364136223846793005u + 1442695040888963407u;
    return (state >> 33) % below;
}

static void step(size_t at, const uint64_t *event, const uint64_t *entries, size_t count, uint64_t *handed_out)
{
    uint64_t dropped;
    uint32_t no = depots_box_step(&boxes[at], event, entries, count, &dropped, handed_out);
    if (no != DEPOTS_TAKEN)
        return;
    events_taken[event[DEPOTS_EVENT_AT_WHAT]]++;
    if (event[DEPOTS_EVENT_AT_WHAT] == DEPOTS_EVENT_MESSAGE)
        kinds_taken[event[DEPOTS_HEAD_AT_KIND]]++;
}

/* Drains a box and delivers what it hands out; one message in sixteen is lost. */
static void drain(size_t at)
{
    static uint64_t row[DEPOTS_ROW], store[DEPOTS_STORE];
    uint64_t event[DEPOTS_EVENT], handed_out, none;
    depots_event(event, DEPOTS_EVENT_DRAIN);
    step(at, event, NULL, 0, &handed_out);
    memcpy(row, boxes[at].row, sizeof row);
    memcpy(store, boxes[at].store, sizeof store);
    for (size_t k = 0; k < handed_out; k++) {
        const uint64_t *head = row + k * DEPOTS_BLOCK;
        if (drawn(16) == 0)
            continue;
        depots_event_message(event, head, at + 1);
        step(head[DEPOTS_HEAD_AT_TO] - 1, event, store + head[DEPOTS_HEAD_AT_START], head[DEPOTS_HEAD_AT_COUNT], &none);
    }
}

/* Something happens to a box. */
static void happen(size_t at)
{
    uint64_t event[DEPOTS_EVENT], entries[2] = {1, 2}, none;
    uint64_t what = drawn(40);
    if (what < 2) {
        depots_event_leader(event, (uint32_t)boxes[at].record[DEPOTS_RECORD_AT_PROMISE] + 1, 0, at + 1);
        step(at, event, NULL, 0, &none);
    } else if (what < 6) {
        depots_event(event, DEPOTS_EVENT_PROPOSE);
        step(at, event, entries, 2, &none);
    } else if (what < 8) {
        depots_event(event, DEPOTS_EVENT_RESEND);
        step(at, event, NULL, 0, &none);
    } else if (what < 9) {
        depots_event(event, DEPOTS_EVENT_RECONNECT);
        event[DEPOTS_EVENT_AT_FROM] = 1 + drawn(DEPOTS);
        step(at, event, NULL, 0, &none);
    } else if (what < 10) {
        depots_event(event, DEPOTS_EVENT_RESTART);
        step(at, event, NULL, 0, &none);
    } else {
        drain(at);
    }
}

/* A full log stays full, so the cluster is made anew now and then. */
static void *run(void *nothing)
{
    for (size_t i = 0; i < STEPS; i++) {
        if (i % 2000 == 0)
            for (size_t at = 0; at < DEPOTS; at++)
                depots_box_fresh(&boxes[at], DEPOTS, at + 1);
        happen(drawn(DEPOTS));
    }
    return nothing;
}

static void *idle(void *nothing)
{
    return nothing;
}

/* How many bytes of a stack of so many a thread touches. Below the stack lies a page that may not be touched. */
static size_t touched_by(void *(*work)(void *), size_t bytes)
{
    unsigned char *low = mmap(NULL, bytes + PAGE, PROT_READ | PROT_WRITE, MAP_PRIVATE | MAP_ANONYMOUS, -1, 0);
    if (low == MAP_FAILED || mprotect(low, PAGE, PROT_NONE) != 0)
        stop("no memory for the stack");
    unsigned char *stack = low + PAGE;
    memset(stack, PAINT, bytes);
    pthread_attr_t attributes;
    pthread_t thread;
    if (pthread_attr_init(&attributes) != 0 || pthread_attr_setstack(&attributes, stack, bytes) != 0)
        stop("no stack of this size");
    if (pthread_create(&thread, &attributes, work, NULL) != 0 || pthread_join(thread, NULL) != 0)
        stop("no thread");
    size_t untouched = 0;
    while (untouched < bytes && stack[untouched] == PAINT)
        untouched++;
    munmap(low, bytes + PAGE);
    return bytes - untouched;
}

int main(int count, char **words)
{
    size_t bytes = count > 1 ? (size_t)strtoull(words[1], NULL, 10) : DEPOTS_STACK;
    size_t idles = touched_by(idle, bytes);
    size_t steps = touched_by(run, bytes);
    for (size_t what = 0; what <= DEPOTS_EVENT_RESTART; what++)
        if (events_taken[what] == 0)
            stop("an event was never taken");
    for (size_t kind = 0; kind <= DEPOTS_KIND_PROPOSAL_FORWARD; kind++)
        if (kinds_taken[kind] == 0)
            stop("a kind of message was never taken");
    printf("a thread that steps touched %zu bytes of its stack, one that does nothing %zu\n", steps, idles);
    return 0;
}
