/*
 * Performs recorded cases on the library, and prints what comes of each: the answer, and a sum of the bytes of everything that was lent. Built for
 * two machines it must print the same, and what the reference expects: record_cases of rust/check writes both, cases and expectation.
 * usage: replay < CASES
 *
 * It keeps nine rows of bytes: L list, I image, S stash, W work and R result area, P patch data, D new data, F a state, B a file or other bytes.
 * Lines that change them:
 *     splice B AT OLD NEW      of B, from byte AT on, OLD bytes go, and NEW zeros come in their place
 *     bytes B AT HEX           these bytes
 *     fill B AT LENGTH BYTE    so many bytes, all the same
 *     block HEX                a block of 4,096 bytes more in the table, whose first has number 0
 *     copy B AT NUMBER         a block of the table
 * Lines that are performed and answered by a line:
 *     case WORDS               the words themselves
 *     digest                   of B
 *     open I S W R P           L with areas of these lengths; F is written
 *     call                     with piece D, from the state F
 *     run CUT ..               with data D; F is written
 *     through LENGTH CALLS     calls from F with pieces of D, of this length and from its total on, past stops, but no more than so many calls;
 *                              at each stop the state is opened up, saved again and taken from there
 *     save                     the state whose fields lie in F as a saved form has them
 *     restore                  B
 *     sparse                   file B over I
 */
#define _DEFAULT_SOURCE
#include <stddef.h>
#include <stdio.h>
#include <stdlib.h>
#include <string.h>
#include <sys/mman.h>

#include "muongrabi.h"

#define BLOCK MUONGRABI_BLOCK
#define MOST_CUTS 64
#define UNWRITTEN 0xa5   /* what is to be written whole holds this before */

static size_t line_number;

static void stop(const char *why)
{
    fprintf(stderr, "replay: line %zu: %s\n", line_number, why);
    exit(2);
}

/* --- the rows */

/* The bytes end at a page that may not be touched, so they start at any address. */
typedef struct row {
    char name;
    uint8_t *base;   /* pages between two that may not be touched */
    size_t room;
    uint8_t *bytes;
    size_t length;
} row;

static row rows[] = {{.name = 'L'}, {.name = 'I'}, {.name = 'S'}, {.name = 'W'}, {.name = 'R'}, {.name = 'P'}, {.name = 'D'}, {.name = 'F'},
                     {.name = 'B'}};
enum { LIST, IMAGE, STASH, WORK, RESULT, PATCH, DATA, STATE, BYTES, ROWS };

static void make_room(row *r, size_t room)
{
    room = (room + BLOCK - 1) / BLOCK * BLOCK;
    uint8_t *base = mmap(NULL, room + 2 * BLOCK, PROT_NONE, MAP_PRIVATE | MAP_ANONYMOUS, -1, 0);
    if (base == MAP_FAILED || (room && mprotect(base + BLOCK, room, PROT_READ | PROT_WRITE) != 0)) stop("no memory");
    base += BLOCK;
    uint8_t *bytes = base + room - r->length;
    if (r->length) memcpy(bytes, r->bytes, r->length);
    if (r->base) munmap(r->base - BLOCK, r->room + 2 * BLOCK);
    r->base = base;
    r->room = room;
    r->bytes = bytes;
}

static void splice(row *r, size_t at, size_t old, size_t fresh)
{
    if (at > r->length || old > r->length - at) stop("past the row's end");
    size_t length = r->length - old + fresh;
    if (length > r->room) make_room(r, 2 * length);
    /* What is behind keeps its distance from the end. */
    uint8_t *bytes = r->base + r->room - length;
    if (at) memmove(bytes, r->bytes, at);
    if (fresh) memset(bytes + at, 0, fresh);
    r->bytes = bytes;
    r->length = length;
}

static uint8_t *place(row *r, size_t at, size_t length)
{
    if (at > r->length || length > r->length - at) stop("past the row's end");
    return r->bytes + at;
}

/* FNV-1a in steps of eight bytes, the lowest first, then of one; what a step leaves in its upper half goes to the lower one too. */
static uint64_t stepped(uint64_t hash, uint64_t step)
{
    hash = (hash ^ step) * 0x100000001b3;
    return hash ^ hash >> 32;
}

static uint64_t sum(const uint8_t *bytes, size_t length)
{
    uint64_t hash = 0xcbf29ce484222325, step;
    for (; length >= sizeof step; bytes += sizeof step, length -= sizeof step) {
        memcpy(&step, bytes, sizeof step);
        hash = stepped(hash, step);
    }
    for (; length; bytes++, length--) hash = stepped(hash, *bytes);
    return hash;
}

static void print_sums(const char *names)
{
    for (; *names; names++)
        for (size_t k = 0; k < ROWS; k++)
            if (rows[k].name == *names) printf(" %c %016llx", *names, (unsigned long long)sum(rows[k].bytes, rows[k].length));
    putchar('\n');
}

/* --- the words of a line */

static char line[4 * BLOCK];
static char *rest;

static int at_end(void)
{
    while (*rest == ' ') rest++;
    return *rest == 0;
}

static char *word(void)
{
    if (at_end()) stop("a word is missing");
    char *start = rest;
    while (*rest && *rest != ' ') rest++;
    if (*rest) *rest++ = 0;
    return start;
}

static size_t number(void)
{
    char *digits = word(), *end;
    size_t value = strtoull(digits, &end, 10);
    if (*end || end == digits || *digits == '-') stop("not a number");
    return value;
}

static row *named(void)
{
    char *name = word();
    for (size_t k = 0; k < ROWS; k++)
        if (rows[k].name == name[0] && !name[1]) return &rows[k];
    stop("no such row");
    return NULL;
}

static int digit(char c)
{
    if (c >= '0' && c <= '9') return c - '0';
    if (c >= 'a' && c <= 'f') return c - 'a' + 10;
    stop("not a hexadecimal digit");
    return 0;
}

static void put_hex(uint8_t *to, const char *hex, size_t length)
{
    for (size_t k = 0; k < length; k++) to[k] = (uint8_t)(digit(hex[2 * k]) << 4 | digit(hex[2 * k + 1]));
}

/* --- what is performed */

static uint8_t *blocks;
static size_t blocks_count;

static void add_block(void)
{
    char *hex = word();
    if (strlen(hex) != 2 * BLOCK) stop("not a block");
    blocks = realloc(blocks, (blocks_count + 1) * BLOCK);
    if (!blocks) stop("no memory");
    put_hex(blocks + blocks_count++ * BLOCK, hex, BLOCK);
}

static void change(const char *what)
{
    row *r = named();
    size_t at = number();
    if (!strcmp(what, "splice")) {
        size_t old = number(), fresh = number();
        splice(r, at, old, fresh);
    } else if (!strcmp(what, "bytes")) {
        char *hex = word();
        size_t length = strlen(hex);
        if (length % 2) stop("half a byte");
        put_hex(place(r, at, length / 2), hex, length / 2);
    } else if (!strcmp(what, "fill")) {
        size_t length = number(), byte = number();
        memset(place(r, at, length), (int)byte, length);
    } else {
        size_t block = number();
        if (block >= blocks_count) stop("no such block");
        memcpy(place(r, at, BLOCK), blocks + block * BLOCK, BLOCK);
    }
}

/* The state where it lies, at an address of any kind. */
static muongrabi_state *state(void)
{
    if (rows[STATE].length != sizeof(muongrabi_state)) stop("F is not as long as a state");
    return (muongrabi_state *)rows[STATE].bytes;
}

static muongrabi_state *unwritten_state(void)
{
    return memset(state(), UNWRITTEN, sizeof(muongrabi_state));
}

#define LENT(k) rows[k].bytes, rows[k].length

static void print_answer(const char *what, const muongrabi_answer *answer)
{
    printf("%s %zu %zu %zu %zu %zu", what, answer->outcome, answer->number, answer->line, answer->byte, answer->taken);
}

static void do_digest(void)
{
    uint8_t out[20];
    muongrabi_digest(LENT(BYTES), out);
    printf("digest ");
    for (size_t k = 0; k < sizeof out; k++) printf("%02x", out[k]);
    print_sums("B");
}

static void do_open(void)
{
    size_t image = number(), stash = number(), work = number(), result = number(), patch = number();
    muongrabi_refusal refusal = muongrabi_open(LENT(LIST), image, stash, work, result, patch, unwritten_state());
    printf("open %zu %zu %zu", refusal.number, refusal.line, refusal.byte);
    print_sums("FL");
}

static void do_call(void)
{
    muongrabi_answer answer =
        muongrabi_call(LENT(LIST), LENT(IMAGE), LENT(STASH), LENT(WORK), LENT(RESULT), LENT(PATCH), LENT(DATA), state());
    print_answer("call", &answer);
    print_sums("FLISWRPD");
}

static void do_run(void)
{
    size_t cuts[MOST_CUTS], count = 0;
    while (!at_end()) {
        if (count == MOST_CUTS) stop("too many cuts");
        cuts[count++] = number();
    }
    muongrabi_answer answer = muongrabi_run(LENT(LIST), LENT(IMAGE), LENT(STASH), LENT(WORK), LENT(RESULT), LENT(PATCH), LENT(DATA), cuts, count,
                                            unwritten_state());
    print_answer("run", &answer);
    print_sums("FLISWRPD");
}

static muongrabi_fields fields;
_Static_assert(sizeof fields == MUONGRABI_SAVED - 10, "the fields are a saved form without its five marks");

static void do_through(void)
{
    size_t length = number(), most = number(), calls = 0, stops = 0, odd = 0;
    muongrabi_answer answer;
    for (;;) {
        muongrabi_state again;
        size_t given = muongrabi_restore(state()->bytes, sizeof(muongrabi_state), &fields);
        if (given != 0 || fields.total > rows[DATA].length) stop("a total past D, or no state");
        memset(&again, UNWRITTEN, sizeof again);
        muongrabi_save(&fields, &again);
        odd += memcmp(&again, state(), sizeof again) != 0;
        size_t left = rows[DATA].length - fields.total;
        answer = muongrabi_call(LENT(LIST), LENT(IMAGE), LENT(STASH), LENT(WORK), LENT(RESULT), LENT(PATCH), rows[DATA].bytes + fields.total,
                                left < length ? left : length, state());
        calls++;
        stops += answer.outcome == MUONGRABI_STOP;
        int goes_on = answer.outcome == MUONGRABI_STOP || (answer.outcome == MUONGRABI_MORE && answer.taken < left);
        if (!goes_on || calls == most) break;
    }
    print_answer("through", &answer);
    printf(" calls %zu stops %zu otherwise %zu", calls, stops, odd);
    print_sums("FLISWRPD");
}

/* The fields as a saved form has them: the tables and the numbers, without the marks. */
static void do_save(void)
{
    static const struct { size_t from, to, length; } parts[] = {{2, offsetof(muongrabi_fields, hashes), 5120},
                                                                {5124, offsetof(muongrabi_fields, sizes), 2048},
                                                                {7174, offsetof(muongrabi_fields, count), 56},
                                                                {7232, offsetof(muongrabi_fields, refusal), 24},
                                                                {7258, offsetof(muongrabi_fields, lengths), 48}};
    muongrabi_state out;
    for (size_t k = 0; k < sizeof parts / sizeof *parts; k++)
        memcpy((uint8_t *)&fields + parts[k].to, state()->bytes + parts[k].from, parts[k].length);
    memset(&out, UNWRITTEN, sizeof out);
    muongrabi_save(&fields, &out);
    printf("save F %016llx\n", (unsigned long long)sum(out.bytes, sizeof out.bytes));
}

static void do_restore(void)
{
    memset(&fields, UNWRITTEN, sizeof fields);
    size_t given = muongrabi_restore(LENT(BYTES), &fields);
    printf("restore %zu %016llx", given, (unsigned long long)sum((const uint8_t *)&fields, sizeof fields));
    print_sums("B");
}

static void do_sparse(void)
{
    uint32_t given = muongrabi_sparse_load(LENT(BYTES), LENT(IMAGE));
    printf("sparse %lu", (unsigned long)given);
    print_sums("BI");
}

int main(void)
{
    static const struct { const char *name; void (*perform)(void); } performed[] = {
        {"digest", do_digest}, {"open", do_open}, {"call", do_call},       {"run", do_run},      {"through", do_through},
        {"save", do_save},     {"restore", do_restore}, {"sparse", do_sparse}, {"block", add_block}};
    for (size_t k = 0; k < ROWS; k++) make_room(&rows[k], k == STATE ? sizeof(muongrabi_state) : 64 * BLOCK);
    size_t answered = 0;
    while (fgets(line, sizeof line, stdin)) {
        line_number++;
        size_t length = strlen(line);
        if (!length || line[length - 1] != '\n') stop("a line is too long, or cut short");
        line[length - 1] = 0;
        if (!strncmp(line, "case ", 5)) {
            puts(line);
            continue;
        }
        rest = line;
        char *what = word();
        size_t k = 0, count = sizeof performed / sizeof *performed;
        while (k < count && strcmp(what, performed[k].name)) k++;
        if (k < count) {
            performed[k].perform();
            answered += performed[k].perform != add_block;
        } else if (!strcmp(what, "splice") || !strcmp(what, "bytes") || !strcmp(what, "fill") || !strcmp(what, "copy")) {
            change(what);
        } else {
            stop("a word that is not known");
        }
        if (!at_end()) stop("a word too many");
    }
    printf("%zu answers\n", answered);
    return ferror(stdin) || fflush(stdout) != 0 ? 2 : 0;
}
