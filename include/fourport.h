/* The rule desk for C and C++: walks of pure Prolog queries by the four-port calculus, forward and back.
 *
 * Link with libfourport.a, which `host/archive` makes for x86-64 Linux; it needs memcpy and memset of the C library and nothing else.
 * What is said here of an answer, of what is written and of what stays untouched is proved for every input; see the contracts in crates/fourport.
 * The inline functions are not in the archive, and nothing is proved of them.
 *
 * docs/SPECIFICATION.md says what questions and services are. Records are laid out as follows.
 *
 * Records. A number has two bytes, the high one first; a port, a tag, an arity and what is said to have one byte have one. 'How many' is a number.
 *
 *   record      how many bytes follow, the version (1 byte, 1), the body: FOURPORT_RECORD bytes at most. No byte says which of the four bodies it has
 *   query       a goal
 *   event       the port, the goal, how many ancestors, these, the topmost first, how many bets, these, the topmost first
 *   program     how many definitions, and these. A definition: its predicate's number, the arity n, how many locals (1 byte), a goal. In the goal the
 *               variables below n are the arguments of the head, from 0, and those from n on the locals
 *   clauses     how many clauses, and these. A clause: its predicate's number, the arity n, how many variables (1 byte, 0 to 64), the n terms of its
 *               head, a goal, its body; a fact has the body true
 *
 * Terms, goals, ancestors and bets start with their kind byte; enum fourport_kind says what stands behind it. A predicate, and a symbol, is a number
 * with an arity of 0 to 16. Half 1 of `A, B` and of `A ; B` is A, half 2 is B; a tag is the number of a half.
 *
 * The record rules, which questions 4 and 14 ask for: definitions rise by number and then by arity; a definition has no variables but those declared;
 * the variables of a clause are those below their count, and each of these occurs; within a unifier the bound variables rise, and none of them occurs
 * in a term of the same unifier.
 *
 * An example: the query `V0 = a`, where a is symbol 2, its first event, a call without ancestors and bets, and the event behind it, an exit with one
 * bet, the unifier that binds V0 to a:
 *
 *   00 09 01  12 01 00 00 02 00 02 00
 *   00 0E 01  01  12 01 00 00 02 00 02 00  00 00  00 00
 *   00 17 01  02  12 01 00 00 02 00 02 00  00 00  00 01  20 00 01  00 00  02 00 02 00
 *
 * Numbers of questions. Each function of the archive but fourport_lookup answers FOURPORT_DONE, which is 0, or the number of the first question
 * (SPECIFICATION 7) whose answer is no, one of enum fourport_number; fourport_words has them in words. The questions are put in this order: 1 to 4,
 * 11 to 14, 5, and then 6 to 10; the second part of 7 is put behind 10, and 32 last. Of texts: 20, 21, 22, 3 (has each arity at most 16, and each
 * clause at most 64 variables?), 5, 10.
 *
 * Duties of a caller, which nothing here can test:
 *  - A pointer is not null and points to as many readable bytes as the length beside it says, `out` and `names` to as many writable and initialised
 *    ones; where the length is 0 too it is not null. The other pointers point to one writable, initialised and aligned value of their type.
 *  - What is written (`out`, `names`, `named`, `taken`, `written`, `at`, `part`, `greatest`, `counts`) overlaps nothing else that the call is given. What
 *    is only read may overlap.
 *  - Nobody else writes any of it during the call, or reads what the call writes.
 *  - The thread has the stack, of which nothing is proved: the deepest calls we know of need 1,256 KiB, so give 4 MiB. Linux gives a main thread 8.
 *
 * There is no state between calls, no heap and no input or output: calls on different data may run at the same time in any number of threads.
 * Every call ends.
 */
#ifndef FOURPORT_H
#define FOURPORT_H

#include <stddef.h>
#include <stdint.h>

/* The version of this page and of the Rust crate over the same archive. */
#define FOURPORT_VERSION_MAJOR 0
#define FOURPORT_VERSION_MINOR 2
#define FOURPORT_VERSION_PATCH 0
#define FOURPORT_VERSION "0.2.0"

/* The longest record, and the shortest output that passes question 5. */
#define FOURPORT_RECORD 32768

/* The longest text of clauses; a query and its rules may have as many bytes together. */
#define FOURPORT_TEXT 65535

/* A buffer of so many bytes has room for the list of names of any text, or of a query and its rules. */
#define FOURPORT_NAMES (3 * FOURPORT_TEXT)

/* Where an event's record has its goal; fourport_goal_end says where that ends, and the count of ancestors starts. */
#define FOURPORT_GOAL_AT 4

/* The ports, as an event's record has them in byte FOURPORT_PORT_AT. */
#define FOURPORT_PORT_AT 3
#define FOURPORT_CALL 1
#define FOURPORT_EXIT 2
#define FOURPORT_FAIL 3
#define FOURPORT_REDO 4

/* The kind bytes, each with what stands behind it. */
enum fourport_kind {
    /* terms */
    FOURPORT_KIND_VARIABLE = 0x01,      /* its number */
    FOURPORT_KIND_SYMBOL = 0x02,        /* its number, the arity, each argument, a term */
    /* goals */
    FOURPORT_KIND_TRUE = 0x10,          /* nothing */
    FOURPORT_KIND_FAIL = 0x11,          /* nothing */
    FOURPORT_KIND_EQUALITY = 0x12,      /* two terms */
    FOURPORT_KIND_CONJUNCTION = 0x13,   /* two goals */
    FOURPORT_KIND_DISJUNCTION = 0x14,   /* two goals */
    FOURPORT_KIND_ATOM = 0x15,          /* its predicate's number, the arity, each argument, a term. As an ancestor: an atom whose body is walked */
    /* bets */
    FOURPORT_KIND_UNIFIER = 0x20,       /* how many pairs, and these: the number of the bound variable, the term that it is bound to */
    FOURPORT_KIND_OR = 0x21,            /* the tag of the half by which a disjunction exited */
    FOURPORT_KIND_BY = 0x22,            /* the goal that was the body by which an atom exited */
    /* ancestors beside the atom */
    FOURPORT_KIND_IN_CONJUNCTION = 0x30,    /* the tag of the half that is walked, two goals */
    FOURPORT_KIND_IN_DISJUNCTION = 0x31     /* the tag of the half that is walked, two goals */
};

/* What a function answers: done, or the question whose answer is no. */
enum fourport_number {
    FOURPORT_DONE = 0,
    /* the program or clause record: has it 3 to 32,768 bytes, and do its first two say how many follow? */
    FOURPORT_NO_PROGRAM_FRAME = 1,
    /* is its version 1? */
    FOURPORT_NO_PROGRAM_VERSION = 2,
    /* is its body, from the first byte to the last, of the kind asked for? Of a text, of rules or of a query, where no record is lent: has each name
     * at most 16 arguments, and each clause at most 64 variables? */
    FOURPORT_NO_PROGRAM_GRAMMAR = 3,
    /* does it keep the record rules: order of definitions, variables? */
    FOURPORT_NO_PROGRAM_RULES = 4,
    /* is the output at least FOURPORT_RECORD bytes? */
    FOURPORT_NO_ROOM = 5,
    /* can the walk go on? Not forward from exit or fail without ancestors, nor back from call without ancestors and bets */
    FOURPORT_NO_WALK = 6,
    /* does a rule match? Of a step back also: does the event found lead on to the given one? */
    FOURPORT_NO_MATCH = 7,
    /* has each value at most 8,192 bytes? */
    FOURPORT_NO_VALUE = 8,
    /* has each local of the body a number of at most 65,535? In a canonical program: has every definition at most 255 locals? */
    FOURPORT_NO_LOCALS = 9,
    /* does the result fit FOURPORT_RECORD bytes? Of an answer of a query: does it fit what is left of the output? */
    FOURPORT_NO_FIT = 10,
    /* the query or event record: as 1 */
    FOURPORT_NO_EVENT_FRAME = 11,
    /* as 2 */
    FOURPORT_NO_EVENT_VERSION = 12,
    /* as 3 */
    FOURPORT_NO_EVENT_GRAMMAR = 13,
    /* does it keep the record rules: pairs of unifiers? */
    FOURPORT_NO_EVENT_RULES = 14,
    /* of a text: may a token, or the space between tokens, hold each of its bytes? */
    FOURPORT_NO_BYTE = 20,
    /* is the text of the grammar? */
    FOURPORT_NO_TEXT = 21,
    /* has the text, or a query and its rules together, at most FOURPORT_TEXT bytes, and does its list of names fit the lent buffer? One of
     * FOURPORT_NAMES bytes it always fits */
    FOURPORT_NO_LENGTH = 22,
    /* on the way back to a door: is a step left within the limit? */
    FOURPORT_NO_LIMIT = 32
};

/* A number in words: `done`, the question, or `no such number`. */
static inline const char *fourport_words(uint32_t number)
{
    switch (number) {
    case FOURPORT_DONE: return "done";
    case FOURPORT_NO_PROGRAM_FRAME:
        return "the program or clause record: has the slice 3 to 32,768 bytes, and does its length field say how many follow?";
    case FOURPORT_NO_PROGRAM_VERSION: return "the program or clause record: is the version 1?";
    case FOURPORT_NO_PROGRAM_GRAMMAR:
        return "the program or clause record: is the body, from its first byte to its last, of the kind asked for? "
               "Of a text: has each name at most 16 arguments, and each clause at most 64 variables?";
    case FOURPORT_NO_PROGRAM_RULES: return "the program or clause record: does it keep the record rules: order, variables, pairs?";
    case FOURPORT_NO_ROOM: return "has the output at least 32,768 bytes?";
    case FOURPORT_NO_WALK: return "can the walk go on?";
    case FOURPORT_NO_MATCH: return "does a rule match?";
    case FOURPORT_NO_VALUE: return "has each value at most 8,192 bytes?";
    case FOURPORT_NO_LOCALS:
        return "has each new local a number of at most 65,535, or in a canonical form each definition at most 255 locals?";
    case FOURPORT_NO_FIT: return "has the result at most 32,768 bytes, or an answer room in the output?";
    case FOURPORT_NO_EVENT_FRAME: return "the query or event record: has the slice 3 to 32,768 bytes, and does its length field say how many follow?";
    case FOURPORT_NO_EVENT_VERSION: return "the query or event record: is the version 1?";
    case FOURPORT_NO_EVENT_GRAMMAR: return "the query or event record: is the body, from its first byte to its last, of the kind asked for?";
    case FOURPORT_NO_EVENT_RULES: return "the query or event record: does it keep the record rules: order, variables, pairs?";
    case FOURPORT_NO_BYTE: return "may a token, or the space between tokens, hold each byte of the text?";
    case FOURPORT_NO_TEXT: return "is the text of the grammar?";
    case FOURPORT_NO_LENGTH: return "has the text, a query with its rules, at most 65,535 bytes, and its list of names room?";
    case FOURPORT_NO_LIMIT: return "is a step back left within the limit?";
    default: return "no such number";
    }
}

/* The number of two bytes, as records, answers and lists of names have it. */
static inline uint16_t fourport_number_at(const uint8_t *bytes)
{
    unsigned number = bytes[0];
    number = number * 256u + bytes[1];
    return number & 0xFFFFu;
}

/* How many bytes the record at the front of a buffer has, its length field included; 0 where no whole record is there. Nothing else is asked. */
static inline size_t fourport_record_length(const uint8_t *bytes, size_t length)
{
    size_t record;
    if (length < 2) return 0;
    record = fourport_number_at(bytes);
    record += 2;
    return record <= length ? record : 0;
}

/* Where the goal ends, of an event the one at its byte FOURPORT_GOAL_AT; and where the term ends. Both read what the desk wrote or accepted: of other
 * bytes they may read past the end. Parts stand behind what they are parts of, so that nothing recurses. */
static inline const uint8_t *fourport_goal_end(const uint8_t *goal)
{
    size_t parts;
    for (parts = 1; parts > 0; parts--) {
        switch (*goal) {
        case FOURPORT_KIND_VARIABLE: goal += 3; break;
        case FOURPORT_KIND_SYMBOL: case FOURPORT_KIND_ATOM: parts += goal[3]; goal += 4; break;
        case FOURPORT_KIND_EQUALITY: case FOURPORT_KIND_CONJUNCTION: case FOURPORT_KIND_DISJUNCTION: parts += 2; goal++; break;
        default: goal++;
        }
    }
    return goal;
}

static inline const uint8_t *fourport_term_end(const uint8_t *term)
{
    return fourport_goal_end(term);
}

/* The directions of a run. */
#define FOURPORT_FORWARD 0
#define FOURPORT_BACK 1

#ifdef __cplusplus
extern "C" {
#endif

/* A text of clauses to its clause record and its list of names.
 * 0: the clause record stands at the start of `out`. At the start of `names` each name stands behind its length of two bytes, the high one first, in
 * order of first appearance; a name's place in this list, from 0, is its number in the record, as a symbol and as a predicate. `named` is the length of
 * the list. The bytes after the record and after the list are untouched.
 * 20, 21, 22, 3, 5, 10: `names` and `out` are untouched, and `named` is 0. The number is all that a refusal says: nothing here gives the place in the
 * text or helps to find it. The Rust crate gives line and column, by a table of its own that is proved nowhere. */
uint32_t fourport_read(const uint8_t *text, size_t text_length, uint8_t *names, size_t names_length, uint8_t *out, size_t out_length, size_t *named);

/* A query as text: `query` is a goal, without a full stop, and is read as the body of one more clause behind the clauses of `rules`. Both texts are
 * asked 20, then both 21; 22 is about both together, and 3, 5 and 10 are about the query alone.
 * 0: the query record stands at the start of `out`, its variables numbered from 0 as they first appear in the query, and the list of names at the start
 * of `names`: the names of the rules first, as fourport_read lists them, and behind them those that are new in the query. `named` is the length of the
 * list. The bytes after the record and after the list are untouched. The names of variables are in no list: whoever shows them finds them in the
 * text, where each new one gets the next number, and `_` a new number each time. A name that is new in the query has a number of this query alone:
 * another query may have the same number for another name.
 * 20, 21, 22, 3, 5, 10: `names` and `out` are untouched, and `named` is 0. */
uint32_t fourport_read_query(const uint8_t *rules, size_t rules_length, const uint8_t *query, size_t query_length, uint8_t *names, size_t names_length,
                             uint8_t *out, size_t out_length, size_t *named);

/* Clauses to canonical program.
 * 0: the program record stands at the start of `out`, whose bytes after it are untouched.
 * 1 to 5, 9, 10: `out` is untouched. */
uint32_t fourport_canonical(const uint8_t *clauses, size_t clauses_length, uint8_t *out, size_t out_length);

/* Query to first event.
 * 0: the event record stands at the start of `out`, whose bytes after it are untouched.
 * 11 to 13, 5, 10: `out` is untouched. */
uint32_t fourport_first(const uint8_t *query, size_t query_length, uint8_t *out, size_t out_length);

/* One step forward. Each call reads program and event anew: to go many steps without a look at each, fourport_run is many times faster.
 * 0: the record of the next event stands at the start of `out`, whose bytes after it are untouched.
 * 1 to 10, 11 to 14: `out` is untouched. */
uint32_t fourport_forward(const uint8_t *program, size_t program_length, const uint8_t *event, size_t event_length, uint8_t *out, size_t out_length);

/* One step back.
 * 0: the record of the event before stands at the start of `out`, whose bytes after it are untouched.
 * 1 to 10, 11 to 14: `out` is untouched. */
uint32_t fourport_back(const uint8_t *program, size_t program_length, const uint8_t *event, size_t event_length, uint8_t *out, size_t out_length);

/* A run: `steps` single steps, forward where `back` is FOURPORT_FORWARD (0), back where it is any other number, or as many as are accepted.
 * 0: all steps were taken. 6 to 10: the number that refused the next step. In both cases the record of the event reached, the given one if no step
 * was taken, stands at the start of `out`, whose bytes after it are untouched, and `taken` is the number of steps taken.
 * 1 to 5, 11 to 14: `out` is untouched, and `taken` is 0. */
uint32_t fourport_run(const uint8_t *program, size_t program_length, const uint8_t *event, size_t event_length, uint32_t steps, uint8_t back,
                      uint8_t *out, size_t out_length, uint32_t *taken);

/* Back to the door of an event: the nearest event, itself included, that calls the same goal with the same ancestors, tags too, whatever the bets
 * are. It is found by single steps back, and no such call is passed on the way.
 * 0: the door is found. 7 to 10: the number that refused the next step back; from an event that a walk reaches none does. 32: `limit` steps were
 * taken, the door is not met, and the next step would not be refused. In all these cases the record of the event come to, the given one if no step
 * was taken, stands at the start of `out`, whose bytes after it are untouched, and `taken` is the number of steps taken: as many steps forward lead
 * from it to the given event again.
 * 1 to 5, 11 to 14: `out` is untouched, and `taken` is 0. */
uint32_t fourport_door(const uint8_t *program, size_t program_length, const uint8_t *event, size_t event_length, uint32_t limit,
                       uint8_t *out, size_t out_length, uint32_t *taken);

/* Every answer of the query Q: the walk of 'Q, fail', at most `steps` steps forward, and an answer at each exit of Q whose only ancestor is 1/Q,fail.
 * An answer has two bytes that count the variables of Q, each variable by rising number (two bytes) with its value (a term), and then two bytes that
 * count the bets BY and OR, and these with their kind bytes, the oldest first. Answers stand one behind the other in `out`, in the order of the walk;
 * one that needs the last byte of the output still fits.
 * Each follows from the program, whatever is put for the variables that it leaves open.
 * 0: all steps were taken, and the list may go on. 6: the walk ended in fail, and the list is whole: all that the program gives for Q are instances of
 * its answers, and no larger count or output gives another; no other number says so. 7 to 10: the number that refused the next step, or the answer at
 * the exit that the last step came to, 8 for a value over 8,192 bytes. In all these cases the answers before that stand at the start of `out`, whose
 * bytes after them are untouched, `written` is their length, and `taken` is the number of steps taken.
 * 1 to 5, 11 to 13, and 10 where the first event of 'Q, fail' is too long: `out` is untouched, and `written` and `taken` are 0. */
uint32_t fourport_answers(const uint8_t *program, size_t program_length, const uint8_t *query, size_t query_length, uint32_t steps,
                          uint8_t *out, size_t out_length, size_t *written, uint32_t *taken);

/* The value of the variable `v` under the bets of an event.
 * 0: its term, without length or version, stands at the start of `out`, whose bytes after it are untouched; `written` is its length, at most 8,192.
 * 11 to 14, 5, 8: `out` is untouched, and `written` is 0. */
uint32_t fourport_value(const uint8_t *event, size_t event_length, uint16_t v, uint8_t *out, size_t out_length, uint32_t *written);

/* The definition that the event's goal names, as a part of the program: answers its length, and `at` is where in the program it starts.
 * Both are 0 where a record is refused, where the goal is not an atom, and where the program does not define its predicate. */
size_t fourport_lookup(const uint8_t *program, size_t program_length, const uint8_t *event, size_t event_length, size_t *at);

/* The greatest variable of an event, and the first of its parts that holds it.
 * 0: `part` is 1 for the bets, 2 for the goal, 3 for the ancestors, and `greatest` is the variable; both are 0 where the event has no variable.
 * 11 to 14: both are 0. */
uint32_t fourport_greatest(const uint8_t *event, size_t event_length, uint32_t *part, uint32_t *greatest);

/* How many events of each port a walk passed. The caller starts them at 0. */
typedef struct fourport_counts {
    uint32_t calls;
    uint32_t exits;
    uint32_t fails;
    uint32_t redos;
} fourport_counts;

/* Adds an event's port to the counts.
 * 0: the count of its port is one more, but one of 4,294,967,295 stays; the others are unchanged.
 * 11 to 14: no count is changed. */
uint32_t fourport_count(fourport_counts *counts, const uint8_t *event, size_t event_length);

#ifdef __cplusplus
}
#endif

#endif
