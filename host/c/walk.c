/* Walks a query forward to where it stops, one step at a time, and then back to its first event, and prints each event on the way: its port, and under
 * how many ancestors its goal stands.
 * The file has two records, the program and behind it the query, as those under examples/ have.
 *
 *   host/archive
 *   cc -std=c99 -Wall -Wextra -Iinclude host/c/walk.c target/staticlib/libfourport.a -o target/c-walk
 *   target/c-walk examples/one-bay.in
 */
#include <stdio.h>
#include <string.h>

#include "fourport.h"

#define MOST_STEPS 100000

/* An event, and how many bytes of the buffer it has. */
struct event {
    size_t length;
    uint8_t bytes[FOURPORT_RECORD];
};

static uint8_t file_bytes[2 * FOURPORT_RECORD];
static size_t program_length;
static struct event first, here, next;

/* Finds the length of an event that a service wrote. */
static void measure(struct event *event)
{
    event->length = fourport_record_length(event->bytes, sizeof event->bytes);
}

static const char *port_word(uint8_t port)
{
    switch (port) {
    case FOURPORT_CALL: return "call";
    case FOURPORT_EXIT: return "exit";
    case FOURPORT_FAIL: return "fail";
    default: return "redo";
    }
}

static int print_event(long at)
{
    unsigned ancestors = fourport_number_at(fourport_goal_end(here.bytes + FOURPORT_GOAL_AT));
    return printf("%ld %s under %u\n", at, port_word(here.bytes[FOURPORT_PORT_AT]), ancestors) > 0;
}

/* Single steps in one direction until one is refused, forward at most MOST_STEPS. Gives the number that refused it, and `at` follows the walk. */
static uint32_t walk(uint8_t back, long *at)
{
    uint32_t number, taken = 0;
    while (back != FOURPORT_FORWARD || *at < MOST_STEPS) {
        number = fourport_run(file_bytes, program_length, here.bytes, here.length, 1, back, next.bytes, sizeof next.bytes, &taken);
        if (number != FOURPORT_DONE) return number;
        measure(&next);
        here = next;
        *at += back == FOURPORT_FORWARD ? 1 : -1;
        if (!print_event(*at)) return FOURPORT_DONE;
    }
    return FOURPORT_DONE;
}

static int print_stop(uint32_t number)
{
    return printf("stop %lu: %s\n", (unsigned long)number, fourport_words(number)) > 0;
}

int main(int count, char **words)
{
    size_t length;
    uint32_t number;
    long at = 0;
    FILE *file = count == 2 ? fopen(words[1], "rb") : NULL;
    if (file == NULL) return fprintf(stderr, "give a file with a program record and a query record\n"), 1;
    length = fread(file_bytes, 1, sizeof file_bytes, file);
    program_length = fourport_record_length(file_bytes, length);
    if (fclose(file) != 0 || program_length == 0) return fprintf(stderr, "there is no program record\n"), 1;
    number = fourport_first(file_bytes + program_length, length - program_length, first.bytes, sizeof first.bytes);
    if (number != FOURPORT_DONE) return fprintf(stderr, "refused by %lu: %s\n", (unsigned long)number, fourport_words(number)), 1;
    measure(&first);
    here = first;
    if (!print_event(at)) return 1;
    number = walk(FOURPORT_FORWARD, &at);
    if (!print_stop(number) || printf("and back\n") < 0) return 1;
    number = walk(FOURPORT_BACK, &at);
    if (!print_stop(number) || fflush(stdout) != 0) return 1;
    return number != FOURPORT_NO_WALK || here.length != first.length || memcmp(here.bytes, first.bytes, first.length) != 0;
}
