/* Reads rules and a query as text, and prints the names by number and the two records.
 *
 *   host/archive
 *   cc -std=c99 -Wall -Wextra -Iinclude host/c/read.c target/staticlib/libfourport.a -o target/c-read
 *   target/c-read examples/one-bay.pl examples/one-bay.query
 */
#include <stdio.h>

#include "fourport.h"

/* One byte more than the longest text, so that a longer one is seen. */
#define TEXT_ROOM (FOURPORT_TEXT + 1)

static uint8_t rules[TEXT_ROOM], query[TEXT_ROOM], names[FOURPORT_NAMES], out[FOURPORT_RECORD];

/* The bytes of a file, as many as there is room for; whether it could be read. */
static int read_file(const char *path, uint8_t *to, size_t *length)
{
    FILE *file = fopen(path, "rb");
    if (file == NULL) {
        perror(path);
        return 0;
    }
    *length = fread(to, 1, TEXT_ROOM, file);
    return fclose(file) == 0;
}

static void print_names(size_t named)
{
    const uint8_t *at = names;
    unsigned number = 0;
    while (at < names + named) {
        int length = fourport_number_at(at);
        printf("%u %.*s\n", number++, length, (const char *)at + 2);
        at += 2 + length;
    }
}

static void print_record(const char *words)
{
    size_t i, length = fourport_record_length(out, sizeof out);
    printf("%s", words);
    for (i = 0; i < length; i++) printf(" %02X", out[i]);
    printf("\n");
}

int main(int count, char **words)
{
    size_t named = 0, rules_length = 0, query_length = 0;
    uint32_t number;
    if (count != 3) {
        fprintf(stderr, "c-read RULES QUERY\n");
        return 2;
    }
    if (!read_file(words[1], rules, &rules_length) || !read_file(words[2], query, &query_length)) return 2;
    number = fourport_read(rules, rules_length, names, FOURPORT_NAMES, out, FOURPORT_RECORD, &named);
    if (number == FOURPORT_DONE) {
        print_record("clauses");
        number = fourport_read_query(rules, rules_length, query, query_length, names, FOURPORT_NAMES, out, FOURPORT_RECORD, &named);
    }
    if (number != FOURPORT_DONE) {
        fprintf(stderr, "refused by %lu: %s\n", (unsigned long)number, fourport_words(number));
        return 1;
    }
    print_record("query");
    print_names(named);
    return 0;
}
