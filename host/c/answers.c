/* Prints every answer of a query: the value of each of its variables as the bytes of a term, and the branches and bodies that gave it, the oldest first.
 * The file has two records, the program and behind it the query, as those under examples/ have.
 *
 *   host/archive
 *   cc -std=c99 -Wall -Wextra -Iinclude host/c/answers.c target/staticlib/libfourport.a -o target/c-answers
 *   target/c-answers examples/one-bay.in
 */
#include <stdio.h>

#include "fourport.h"

#define STEPS 100000
#define ROOM 1000000

static uint8_t file_bytes[2 * FOURPORT_RECORD], out[ROOM];

static void print_bytes(const uint8_t *from, const uint8_t *to)
{
    for (; from < to; from++) printf(" %02X", *from);
}

/* Prints an answer, and gives where it ends. */
static const uint8_t *print_answer(const uint8_t *at)
{
    size_t left = fourport_number_at(at);
    for (at += 2; left > 0; left--) {
        const uint8_t *term = at + 2, *end = fourport_term_end(term);
        printf("  V%u =", (unsigned)fourport_number_at(at));
        print_bytes(term, end);
        printf("\n");
        at = end;
    }
    left = fourport_number_at(at);
    for (at += 2; left > 0; left--) {
        int body = at[0] == FOURPORT_KIND_BY;
        const uint8_t *end = body ? fourport_goal_end(at + 1) : at + 2;
        printf(body ? "  by the body" : "  by the branch");
        print_bytes(at + 1, end);
        printf("\n");
        at = end;
    }
    return at;
}

int main(int count, char **words)
{
    size_t length, program, written = 0;
    uint32_t number, taken = 0;
    unsigned long found = 0;
    const uint8_t *at = out;
    FILE *file = count == 2 ? fopen(words[1], "rb") : NULL;
    if (file == NULL) return fprintf(stderr, "give a file with a program record and a query record\n"), 1;
    length = fread(file_bytes, 1, sizeof file_bytes, file);
    program = fourport_record_length(file_bytes, length);
    if (fclose(file) != 0 || program == 0) return fprintf(stderr, "there is no program record\n"), 1;
    number = fourport_answers(file_bytes, program, file_bytes + program, length - program, STEPS, out, sizeof out, &written, &taken);
    while (at < out + written) {
        printf("answer %lu\n", ++found);
        at = print_answer(at);
    }
    printf("stop %lu after %lu steps: ", (unsigned long)number, (unsigned long)taken);
    printf("%s\n", number == FOURPORT_NO_WALK ? "these are all" : number == FOURPORT_DONE ? "there may be more" : fourport_words(number));
    return fflush(stdout) != 0;
}
