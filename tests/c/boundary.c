/*
 * Lent areas, states, fields and answers stand against a page that may not be touched, behind them or before them, and list, patch data, piece, cuts
 * and sparse file may not be written: a byte read or written outside what was lent ends the program. Each way to come to a stop may touch no block
 * but those it reads or writes by the rules. What is null, and refusals in words, are tried after that, and then the exports themselves. Ends in one
 * line `N passed, M failed`.
 */
#define _DEFAULT_SOURCE
#include <stdio.h>
#include <stdlib.h>
#include <string.h>
#include <sys/mman.h>

#include "muongrabi.h"

#define BLOCK MUONGRABI_BLOCK

static int passed, failed;

static void check(int good, const char *what)
{
    if (good) {
        passed++;
    } else {
        failed++;
        printf("failed: %s\n", what);
    }
}

/* Room for some pages with a page that may not be touched on either side. */
typedef struct {
    uint8_t *first;
    size_t room;
} lot;

static lot new_lot(size_t pages)
{
    size_t length = (pages + 2) * BLOCK;
    uint8_t *base = mmap(NULL, length, PROT_NONE, MAP_PRIVATE | MAP_ANONYMOUS, -1, 0);
    if (base == MAP_FAILED || (pages && mprotect(base + BLOCK, pages * BLOCK, PROT_READ | PROT_WRITE) != 0)) {
        perror("mmap");
        exit(2);
    }
    lot made = {base + BLOCK, pages * BLOCK};
    return made;
}

/* The bytes against the page behind, or the one before; read-only where asked. */
static uint8_t *lay(lot *in, const void *bytes, size_t length, int behind, int read_only)
{
    if (in->room) mprotect(in->first, in->room, PROT_READ | PROT_WRITE);
    uint8_t *at = behind ? in->first + in->room - length : in->first;
    if (length) memcpy(at, bytes, length);
    if (in->room && read_only) mprotect(in->first, in->room, PROT_READ);
    return at;
}

static void fill(uint8_t *bytes, const char *letters)
{
    for (size_t k = 0; letters[k]; k++) memset(bytes + k * BLOCK, letters[k] == '0' ? 0 : letters[k], BLOCK);
}

static int holds(const uint8_t *bytes, const char *letters)
{
    for (size_t k = 0; letters[k]; k++)
        for (size_t j = 0; j < BLOCK; j++)
            if (bytes[k * BLOCK + j] != (letters[k] == '0' ? 0 : letters[k])) return 0;
    return 1;
}

static int with_byte(size_t number)
{
    return number == MUONGRABI_REFUSAL_HEADER_FORM || number == MUONGRABI_REFUSAL_LINE_FORM;
}

/* An outcome that there is; a number and a line only where it is a refusal, and a byte only where it is one with a byte. */
static int sound(const muongrabi_answer *answer)
{
    int refused = answer->outcome == MUONGRABI_REFUSED;
    return answer->outcome <= MUONGRABI_STOP && (refused ? answer->number != 0 : answer->number == 0 && answer->line == 0) &&
           (with_byte(answer->number) || answer->byte == 0);
}

/* The answer is this refusal, with nothing taken. */
static int is_refused(const muongrabi_answer *answer, size_t number, size_t line, size_t byte)
{
    return answer->outcome == MUONGRABI_REFUSED && answer->number == number && answer->line == line && answer->byte == byte && answer->taken == 0;
}

static int refusal_is(const muongrabi_refusal *refusal, size_t number, size_t line, size_t byte)
{
    return refusal->number == number && refusal->line == line && refusal->byte == byte;
}

static void put_form_number(uint8_t *form, size_t *at, size_t number)
{
    for (int k = 0; k < 8; k++, number >>= 8) form[(*at)++] = (uint8_t)number;
}

/* The saved form as docs/SAVED-FORM.md has it. */
static void form_of(const muongrabi_fields *fields, uint8_t form[MUONGRABI_SAVED])
{
    const muongrabi_refusal *refusal = &fields->refusal;
    const muongrabi_lengths *lengths = &fields->lengths;
    size_t progress[] = {fields->count, fields->line, fields->at, fields->into, fields->total, fields->ready, fields->stretches};
    size_t refused[] = {refusal->number, refusal->line, refusal->byte};
    size_t opened[] = {lengths->list, lengths->image, lengths->stash, lengths->work, lengths->result, lengths->patch};
    const struct {
        char mark[3];
        const size_t *numbers;
        size_t count;
    } records[] = {{"SB", fields->sizes, MUONGRABI_MOST_STASHES}, {"SP", progress, 7}, {"SR", refused, 3}, {"SL", opened, 6}};
    memcpy(form, "SH", 2);
    memcpy(form + 2, fields->hashes, sizeof fields->hashes);
    size_t at = 2 + sizeof fields->hashes;
    for (size_t k = 0; k < 4; k++) {
        form[at++] = (uint8_t)records[k].mark[0];
        form[at++] = (uint8_t)records[k].mark[1];
        for (size_t j = 0; j < records[k].count; j++) put_form_number(form, &at, records[k].numbers[j]);
    }
    if (at != MUONGRABI_SAVED) exit(2);
}

/* The state with these fields, made without the library. */
static muongrabi_state state_of(const muongrabi_fields *fields)
{
    muongrabi_state state;
    form_of(fields, state.bytes);
    return state;
}

/* The state has these fields and no others. */
static int has(const muongrabi_state *state, const muongrabi_fields *fields)
{
    muongrabi_state expected = state_of(fields);
    return memcmp(state, &expected, sizeof expected) == 0;
}

static int same(const muongrabi_state *state, const muongrabi_state *other)
{
    return memcmp(state, other, sizeof *other) == 0;
}

/* What is in a state. That these are its fields is seen by making the state again. */
static muongrabi_fields fields_of(const muongrabi_state *state)
{
    muongrabi_fields fields;
    memset(&fields, 0xa5, sizeof fields);
    if (muongrabi_restore(state->bytes, sizeof state->bytes, &fields) != 0 || !has(state, &fields)) check(0, "the fields of a state");
    return fields;
}

/* Nothing but this refusal. */
static int only_refused(const muongrabi_state *state, const muongrabi_refusal *refusal)
{
    muongrabi_fields refused;
    memset(&refused, 0, sizeof refused);
    refused.refusal = *refusal;
    return refusal->number != 0 && has(state, &refused);
}

static void name_of(const char *letters, char out[41])
{
    static uint8_t bytes[8 * BLOCK];
    uint8_t hash[20];
    fill(bytes, letters);
    muongrabi_digest(bytes, strlen(letters) * BLOCK, hash);
    for (int k = 0; k < 20; k++) sprintf(out + 2 * k, "%02x", hash[k]);
}

static lot list_lot, image_lot, stash_lot, work_lot, result_lot, patch_lot, piece_lot, cuts_lot, hash_lot, file_lot, state_lot, form_lot, fields_lot,
    answer_lot;

/* A state where the others lie. */
static muongrabi_state *lay_state(const muongrabi_state *state, int behind)
{
    return (muongrabi_state *)(void *)lay(&state_lot, state, sizeof *state, behind, 0);
}

/* The same of the state with these fields. */
static muongrabi_state *lay_fields(const muongrabi_fields *fields, int behind)
{
    muongrabi_state state = state_of(fields);
    return lay_state(&state, behind);
}

/* The same of bytes that are no state's, for what is only written. */
static muongrabi_state *lay_no_state(int behind)
{
    muongrabi_state none;
    memset(&none, 0xa5, sizeof none);
    return lay_state(&none, behind);
}

/* Digests at every length around the padding, read and written against the pages. */
static void digests(void)
{
    static const char *abc = "a9993e364706816aba3e25717850c26c9cd0d89d";
    static uint8_t bytes[260], plain[20];
    for (size_t k = 0; k < sizeof bytes; k++) bytes[k] = (uint8_t)(k * 7);
    int good = 1;
    for (int behind = 0; behind < 2; behind++) {
        for (size_t length = 0; length <= sizeof bytes; length++) {
            uint8_t nothing[20] = {0};
            const uint8_t *at = lay(&piece_lot, bytes, length, behind, 1);
            uint8_t *out = lay(&hash_lot, nothing, 20, behind, 0);
            muongrabi_digest(at, length, out);
            muongrabi_digest(bytes, length, plain);
            good &= memcmp(out, plain, 20) == 0;
        }
    }
    check(good, "digests against the pages");
    muongrabi_digest((const uint8_t *)"abc", 3, plain);
    char text[41];
    for (int k = 0; k < 20; k++) sprintf(text + 2 * k, "%02x", plain[k]);
    check(strcmp(text, abc) == 0, "digest of abc");
}

static char list[4096];
static uint8_t patch[2 * BLOCK];
static size_t patch_length, heads[4], records;

static void put_patch_number(uint64_t number)
{
    for (int k = 0; k < 8; k++, number >>= 8) patch[patch_length++] = (uint8_t)number;
}

/* A record of a patch: bytes to add, all of one value, extra bytes of another, and the seek's bits. */
static void put_record(size_t add, uint8_t added, size_t extra, uint8_t copied, uint64_t seek)
{
    heads[records++] = patch_length;
    patch[patch_length++] = 0x43;
    patch[patch_length++] = 0x50;
    put_patch_number(add);
    put_patch_number(extra);
    put_patch_number(seek);
    memset(patch + patch_length, added, add);
    memset(patch + patch_length + add, copied, extra);
    patch_length += add + extra;
}

/* Makes a block s of a block r: from within it, from before it and from past it, and with extra bytes. */
static void make_patch(void)
{
    const uint64_t minus = (uint64_t)1 << 63;
    patch_length = records = 0;
    put_record(1000, 1, 96, 's', minus + 1500);
    put_record(500, 's', 0, 0, 4000);
    put_record(96, 1, 0, 0, minus + 4096);
    put_record(2404, 1, 0, 0, minus + 77);
}

/* A list with every command and form. */
static size_t make_list(void)
{
    char ab[41], h[41], cde[41], ba[41], phq[41], r[41], s[41];
    make_patch();
    name_of("AB", ab);
    name_of("H", h);
    name_of("CDE", cde);
    name_of("BA", ba);
    name_of("pHq", phq);
    name_of("r", r);
    name_of("s", s);
    return (size_t)snprintf(list, sizeof list,
        "3\n13\n2\n3\nstash %s 2,0,2\nstash %s 2,7,8\nnew 4,0,1,6,7\nmove %s 2,1,4 3 2,2,5\nmove %s 2,4,6 2 - %s:4,1,2,0,1\n"
        "move %s 4,7,8,2,4 3 4,0,1,6,7 4,0,1,2,3 %s:2,1,2\nfree %s\nzero 2,1,2\nerase 2,6,7\nnew 2,5,6\n"
        "bsdiff 0 %zu %s %s 2,7,8 1 2,5,6\n",
        ab, h, cde, ba, ab, phq, h, ab, patch_length, r, s);
}

/* The whole list in pieces of one length, over a stash area as large as it must be and a work and a result area of other lengths. */
static void whole_runs(size_t length)
{
    static uint8_t image[8 * BLOCK], data[3 * BLOCK], stash[3 * BLOCK], work[4 * BLOCK], result[2 * BLOCK];
    fill(data, "pqr");
    const size_t all_stops = 13;   /* two for each stash, move and bsdiff, and one for the free */
    size_t pieces[] = {1, 64, 4095, 4096, 4097, 3 * BLOCK};
    muongrabi_state last;
    for (int behind = 0; behind < 2; behind++) {
        for (size_t k = 0; k < sizeof pieces / sizeof *pieces; k++) {
            fill(image, "ABCDEFGH");
            fill(stash, "xyz");
            fill(work, "stuv");
            fill(result, "kl");
            const uint8_t *l = lay(&list_lot, list, length, behind, 1);
            uint8_t *i = lay(&image_lot, image, sizeof image, behind, 0);
            uint8_t *s = lay(&stash_lot, stash, sizeof stash, behind, 0);
            uint8_t *w = lay(&work_lot, work, sizeof work, behind, 0);
            uint8_t *r = lay(&result_lot, result, sizeof result, behind, 0);
            const uint8_t *p = lay(&patch_lot, patch, patch_length, behind, 1);
            muongrabi_state *state = lay_no_state(behind);
            muongrabi_refusal refusal =
                muongrabi_open(l, length, sizeof image, sizeof stash, sizeof work, sizeof result, patch_length, state);
            muongrabi_answer answer = {.outcome = MUONGRABI_MORE};
            size_t taken = 0, end = 0, stops = 0;
            int good = refusal_is(&refusal, 0, 0, 0);
            do {
                /* A new piece after more. After a stop the bytes not taken; with some lengths there is more behind them. */
                if (answer.outcome == MUONGRABI_MORE || k % 2 == 0) end = sizeof data - taken < pieces[k] ? sizeof data : taken + pieces[k];
                const uint8_t *piece = lay(&piece_lot, data + taken, end - taken, behind, 1);
                answer = muongrabi_call(l, length, i, sizeof image, s, sizeof stash, w, sizeof work, r, sizeof result, p, patch_length,
                                        piece, end - taken, state);
                taken += answer.taken;
                stops += answer.outcome == MUONGRABI_STOP;
                good &= sound(&answer) && taken <= end && fields_of(state).total == taken;
                if (answer.outcome == MUONGRABI_MORE) good &= taken == end;
                else good &= answer.outcome != MUONGRABI_REFUSED;
            } while (answer.outcome == MUONGRABI_STOP || (answer.outcome == MUONGRABI_MORE && taken < sizeof data));
            check(good && answer.outcome == MUONGRABI_DONE && taken == sizeof data, "a run's end");
            check(stops == all_stops, "a run's stops");
            check(holds(i, "p0HqBr0s") && holds(s, "HBH") && holds(w, "rHqv") && holds(r, "sl"), "what a run leaves");
            muongrabi_fields fields = fields_of(state);
            check(fields.count == 1 && fields.sizes[0] == 1 && fields.at == length && fields.line == 16, "the state at the end");
            check(fields.total == sizeof data && fields.ready == 0 && fields.stretches == 0 && fields.into == 0, "its total and its marks");
            check(fields.lengths.result == sizeof result && fields.lengths.patch == patch_length, "the lengths in a state");
            last = *state;
        }
        size_t cuts[] = {0, 1, 4096, 5000, 0, 99999};
        fill(image, "ABCDEFGH");
        fill(stash, "xyz");
        fill(work, "stuv");
        fill(result, "kl");
        const uint8_t *l = lay(&list_lot, list, length, behind, 1);
        uint8_t *i = lay(&image_lot, image, sizeof image, behind, 0);
        uint8_t *s = lay(&stash_lot, stash, sizeof stash, behind, 0);
        uint8_t *w = lay(&work_lot, work, sizeof work, behind, 0);
        uint8_t *r = lay(&result_lot, result, sizeof result, behind, 0);
        const uint8_t *p = lay(&patch_lot, patch, patch_length, behind, 1);
        const uint8_t *d = lay(&piece_lot, data, sizeof data, behind, 1);
        const size_t *c = (const size_t *)(const void *)lay(&cuts_lot, cuts, sizeof cuts, behind, 1);
        /* Whatever the state held. */
        muongrabi_state *state = lay_no_state(behind);
        muongrabi_answer answer = muongrabi_run(l, length, i, sizeof image, s, sizeof stash, w, sizeof work, r, sizeof result,
                                                p, patch_length, d, sizeof data, c, 6, state);
        check(answer.outcome == MUONGRABI_DONE && answer.taken == sizeof data, "a run over cuts");
        check(same(state, &last), "the state after a run over cuts");
        check(holds(i, "p0HqBr0s") && holds(s, "HBH") && holds(w, "rHqv") && holds(r, "sl"), "what a run over cuts leaves");
    }
}

/* Every beginning of the list, opened and called from every line: nothing is read past its last byte, and a line that ends too soon is wrong
 * where the list ends. */
static void beginnings(size_t length)
{
    static uint8_t image[8 * BLOCK], data[3 * BLOCK], stash[3 * BLOCK], work[4 * BLOCK], result[2 * BLOCK];
    fill(data, "pqr");
    int good = 1;
    for (size_t n = 0; n <= length; n++) {
        const uint8_t *l = lay(&list_lot, list, n, 1, 1);
        muongrabi_state *opened = lay_no_state(1);
        muongrabi_refusal refusal = muongrabi_open(l, n, sizeof image, sizeof stash, sizeof work, sizeof result, patch_length, opened);
        size_t number = refusal.number;
        good &= n == length ? number == 0 : only_refused(opened, &refusal) && (with_byte(number) || number == 15);
        good &= refusal.byte == (with_byte(number) ? n : 0);
        for (size_t at = 0, line = 1; at <= n; at++) {
            if (at > 0 && list[at - 1] == '\n') line++;
            if (at > 0 && at < n && list[at - 1] != '\n') continue;
            muongrabi_fields from;
            memset(&from, 0, sizeof from);
            from.at = at;
            from.line = line;
            from.lengths = (muongrabi_lengths){n, sizeof image, sizeof stash, sizeof work, sizeof result, patch_length};
            fill(image, "ABCDEFGH");
            uint8_t *i = lay(&image_lot, image, sizeof image, 1, 0);
            uint8_t *s = lay(&stash_lot, stash, sizeof stash, 1, 0);
            uint8_t *w = lay(&work_lot, work, sizeof work, 1, 0);
            uint8_t *r = lay(&result_lot, result, sizeof result, 1, 0);
            const uint8_t *p = lay(&patch_lot, patch, patch_length, 1, 1);
            const uint8_t *d = lay(&piece_lot, data, sizeof data, 1, 1);
            muongrabi_state *called = lay_fields(&from, 1);
            muongrabi_answer answer;
            size_t taken = 0;
            do {
                answer = muongrabi_call(l, n, i, sizeof image, s, sizeof stash, w, sizeof work, r, sizeof result,
                                        p, patch_length, d + taken, sizeof data - taken, called);
                taken += answer.taken;
                good &= sound(&answer);
            } while (answer.outcome == MUONGRABI_STOP);
            good &= answer.byte == (with_byte(answer.number) ? n : 0);
        }
    }
    check(good, "every beginning of the list");
}

static char patch_list[200];

/* A list of one `bsdiff` that makes block 1 of block 0, with so many bytes of the patch data from there on. */
static size_t make_patch_list(size_t from, size_t bytes)
{
    static char r[41], s[41];
    if (!*r) name_of("r", r);
    if (!*s) name_of("s", s);
    return (size_t)snprintf(patch_list, sizeof patch_list, "3\n1\n0\n0\nbsdiff %zu %zu %s %s 2,1,2 1 2,0,1\n", from, bytes, r, s);
}

/* In a record's head, or a byte beside it; of the bytes between, some. */
static int tried(size_t at)
{
    for (size_t k = 0; k < records; k++)
        if (at + 2 > heads[k] && at < heads[k] + 28) return 1;
    return at % 61 == 0 || at + 2 > patch_length;
}

/* The patch, beginnings of it, and bytes of it altered, against the pages: nothing is read past its end, and a result is written only where
 * all of it is good. */
static void patches(void)
{
    static uint8_t image[2 * BLOCK], work[BLOCK], result[BLOCK];
    fill(image, "rq");
    fill(work, "w");
    fill(result, "k");
    make_patch();
    muongrabi_state after;
    for (int behind = 0; behind < 2; behind++) {
        int good = 1;
        for (size_t n = 0; n <= patch_length; n++) {
            if (!tried(n)) continue;
            size_t length = make_patch_list(0, n);
            const uint8_t *l = lay(&list_lot, patch_list, length, behind, 1);
            uint8_t *i = lay(&image_lot, image, sizeof image, behind, 0);
            uint8_t *w = lay(&work_lot, work, sizeof work, behind, 0);
            uint8_t *r = lay(&result_lot, result, sizeof result, behind, 0);
            const uint8_t *p = lay(&patch_lot, patch, n, behind, 1);
            muongrabi_answer answer =
                muongrabi_run(l, length, i, sizeof image, NULL, 0, w, sizeof work, r, sizeof result, p, n, NULL, 0, NULL, 0, &after);
            good &= sound(&answer) && holds(w, "r");
            if (n < patch_length) good &= answer.number == MUONGRABI_REFUSAL_PATCH_MALFORMED && answer.line == 5 && holds(i, "rq") && holds(r, "k");
            else good &= answer.outcome == MUONGRABI_DONE && holds(i, "rs") && holds(r, "s");
        }
        check(good, "beginnings of a patch");

        good = 1;
        size_t length = make_patch_list(0, patch_length);
        const uint8_t *l = lay(&list_lot, patch_list, length, behind, 1);
        for (size_t at = 0; at < patch_length; at++) {
            static const uint8_t others[] = {0, 1, 0x7f, 0x80, 0xff};
            if (!tried(at)) continue;
            for (size_t k = 0; k < sizeof others; k++) {
                static uint8_t altered[sizeof patch];
                memcpy(altered, patch, patch_length);
                altered[at] = others[k];
                uint8_t *i = lay(&image_lot, image, sizeof image, behind, 0);
                uint8_t *w = lay(&work_lot, work, sizeof work, behind, 0);
                uint8_t *r = lay(&result_lot, result, sizeof result, behind, 0);
                const uint8_t *p = lay(&patch_lot, altered, patch_length, behind, 1);
                muongrabi_answer answer =
                    muongrabi_run(l, length, i, sizeof image, NULL, 0, w, sizeof work, r, sizeof result, p, patch_length, NULL, 0, NULL, 0, &after);
                good &= sound(&answer) && holds(w, "r");
                /* The last seek may be another. */
                if (answer.outcome == MUONGRABI_DONE) good &= holds(i, "rs") && holds(r, "s");
                else if (answer.number == MUONGRABI_REFUSAL_PATCH_MALFORMED) good &= holds(i, "rq") && holds(r, "k");
                else good &= answer.number == MUONGRABI_REFUSAL_HASH_DIFFERS && holds(i, "rq") && !holds(r, "s") && !holds(r, "k");
            }
        }
        check(good, "bytes of a patch altered");

        /* Offsets and lengths around the patch data's end. */
        good = 1;
        for (size_t from = patch_length - 2; from <= patch_length + 1; from++) {
            for (size_t bytes = 0; bytes <= 4; bytes++) {
                length = make_patch_list(from, bytes);
                l = lay(&list_lot, patch_list, length, behind, 1);
                muongrabi_refusal refusal = muongrabi_open(l, length, sizeof image, 0, sizeof work, sizeof result, patch_length, &after);
                good &= refusal.number == (from + bytes > patch_length ? MUONGRABI_REFUSAL_PAST_PATCH : 0u);
                uint8_t *i = lay(&image_lot, image, sizeof image, behind, 0);
                uint8_t *w = lay(&work_lot, work, sizeof work, behind, 0);
                uint8_t *r = lay(&result_lot, result, sizeof result, behind, 0);
                const uint8_t *p = lay(&patch_lot, patch, patch_length, behind, 1);
                muongrabi_fields fields;
                memset(&fields, 0, sizeof fields);
                fields.at = 8;
                fields.line = 5;
                fields.lengths = (muongrabi_lengths){length, sizeof image, 0, sizeof work, sizeof result, patch_length};
                muongrabi_state state = state_of(&fields);
                muongrabi_answer answer =
                    muongrabi_call(l, length, i, sizeof image, NULL, 0, w, sizeof work, r, sizeof result, p, patch_length, NULL, 0, &state);
                good &= answer.number == (from + bytes > patch_length ? MUONGRABI_REFUSAL_PAST_PATCH : MUONGRABI_REFUSAL_PATCH_MALFORMED);
                good &= holds(i, "rq") && holds(r, "k");
            }
        }
        check(good, "patches around the end of the patch data");
    }
    /* Memory of exactly the lengths that are lent, so that a sanitizer or valgrind sees its ends too. */
    for (size_t n = patch_length - 1; n <= patch_length; n++) {
        size_t length = make_patch_list(0, n);
        uint8_t *l = malloc(length), *i = malloc(2 * BLOCK), *w = malloc(BLOCK), *r = malloc(BLOCK), *p = malloc(n);
        if (!l || !i || !w || !r || !p) exit(2);
        memcpy(l, patch_list, length);
        memcpy(i, image, sizeof image);
        memcpy(p, patch, n);
        muongrabi_state *state = malloc(sizeof *state);
        if (!state) exit(2);
        muongrabi_answer answer = muongrabi_run(l, length, i, 2 * BLOCK, NULL, 0, w, BLOCK, r, BLOCK, p, n, NULL, 0, NULL, 0, state);
        muongrabi_fields fields = fields_of(state);
        check(fields.refusal.number == answer.number && fields.line == (n == patch_length ? 6u : 5u), "a state in allocated memory");
        check(n == patch_length ? answer.outcome == MUONGRABI_DONE && holds(i, "rs") && holds(r, "s") : answer.number == 19 && holds(i, "rq"),
              "a patch in allocated memory");
        free(l);
        free(i);
        free(w);
        free(r);
        free(p);
        free(state);
    }
}

/*
 * Lines whose target has the result already. A block is a page here, so that what such a line does can be seen: the target's blocks may be read
 * and not written, and the rest of the image, the areas and the patch data may not be touched.
 */
static void finished_lines(void)
{
    static uint8_t image[8 * BLOCK];
    static char text[400];
    lot i = new_lot(8), s = new_lot(1), w = new_lot(2), r = new_lot(2), p = new_lot(1);
    char a[41], b[41], bc[41], cb[41], bb[41];
    name_of("A", a);
    name_of("B", b);
    name_of("BC", bc);
    name_of("CB", cb);
    name_of("BB", bb);
    fill(image, "ABCDEFGH");
    lay(&i, image, sizeof image, 0, 0);
    lot *others[] = {&i, &s, &w, &r, &p};
    for (size_t k = 0; k < sizeof others / sizeof *others; k++)
        if (mprotect(others[k]->first, others[k]->room, PROT_NONE) != 0) exit(2);
    if (mprotect(i.first + BLOCK, 2 * BLOCK, PROT_READ) != 0) exit(2);
    /* No source has its hash, and no patch is good. */
    for (int k = 0; k < 9; k++) {
        char line[300];
        if (k == 0) snprintf(line, sizeof line, "move %s 2,1,3 2 2,4,6", bc);
        if (k == 1) snprintf(line, sizeof line, "move %s 4,2,3,1,2 2 2,4,6", cb);
        if (k == 2) snprintf(line, sizeof line, "move %s 4,1,2,1,2 2 2,4,6", bb);
        if (k == 3) snprintf(line, sizeof line, "move %s 2,1,3 2 - %s:2,0,1 %s:2,1,2", bc, a, a);
        if (k == 4) snprintf(line, sizeof line, "move %s 2,1,3 2 2,4,5 2,0,1 %s:2,1,2", bc, a);
        if (k == 5) snprintf(line, sizeof line, "bsdiff 0 4096 %s %s 2,1,3 1 2,4,5", a, bc);
        if (k == 6) snprintf(line, sizeof line, "bsdiff 7 99 %s %s 2,1,3 1 - %s:2,0,1", a, bc, a);
        if (k == 7) snprintf(line, sizeof line, "bsdiff 4096 0 %s %s 2,1,2 2 2,4,5 2,1,2 %s:2,0,1", a, b, a);
        if (k == 8) snprintf(line, sizeof line, "bsdiff 0 1 %s %s 4,1,2,1,2 1 2,4,5", a, bb);
        size_t length = (size_t)snprintf(text, sizeof text, "3\n%d\n1\n1\n%s\n", k == 7 ? 1 : 2, line);
        /* The stash A is held by hand: a `stash` line would write. */
        muongrabi_fields fields;
        memset(&fields, 0, sizeof fields);
        fields.at = 8;
        fields.line = 5;
        fields.count = 1;
        fields.sizes[0] = 1;
        muongrabi_digest(image, BLOCK, fields.hashes);
        fields.lengths = (muongrabi_lengths){length, i.room, s.room, w.room, r.room, p.room};
        muongrabi_state *called = lay_fields(&fields, k % 2);
        fields.at = length;
        fields.line = 6;
        /* It stops behind the line, and then the list is finished. */
        for (int again = 0; again < 2; again++) {
            muongrabi_answer answer = muongrabi_call(lay(&list_lot, text, length, k % 2, 1), length, i.first, i.room, s.first, s.room,
                                                     w.first, w.room, r.first, r.room, p.first, p.room, lay(&piece_lot, "piece", 5, 1, 1), 5, called);
            check(answer.outcome == (again ? MUONGRABI_DONE : MUONGRABI_STOP) && answer.taken == 0, "a finished line");
            check(has(called, &fields), "the state behind a finished line");
        }
    }
}

/* Areas of no bytes, and states of border values. */
static void nothing_lent(void)
{
    static const char *empty = "3\n0\n0\n0\n";
    static const char *some = "3\n3\n256\n0\nzero 2,0,1\nnew 2,0,1\nnew 2,0,1\n";
    lot none = new_lot(0);
    for (int behind = 0; behind < 2; behind++) {
        const uint8_t *l = lay(&list_lot, empty, strlen(empty), behind, 1);
        muongrabi_state state;
        muongrabi_refusal refusal = muongrabi_open(l, strlen(empty), 0, 0, 0, 0, 0, &state);
        check(refusal_is(&refusal, 0, 0, 0), "the empty list opened");
        muongrabi_answer answer = muongrabi_call(l, strlen(empty), none.first, 0, none.first, 0, none.first, 0, none.first, 0, none.first, 0,
                                                 none.first, 0, &state);
        check(answer.outcome == MUONGRABI_DONE && answer.taken == 0, "the empty list with nothing lent");
        refusal = muongrabi_open(none.first, 0, 0, 0, 0, 0, 0, &state);
        check(refusal_is(&refusal, 3, 1, 0) && only_refused(&state, &refusal), "no list");
        answer = muongrabi_run(none.first, 0, none.first, 0, none.first, 0, none.first, 0, none.first, 0, none.first, 0,
                               none.first, 0, (const size_t *)(const void *)none.first, 0, &state);
        check(is_refused(&answer, 3, 1, 0), "a run over no list");
        check(only_refused(&state, &refusal), "the state of a run over no list");
    }

    static uint8_t image[BLOCK];
    size_t borders[] = {0, 1, 4, 5, 6, 7, 8, 10, 20, 21, 31, 41, 64, 65, 255, 256, 257, 4095, 4096, 4097, (size_t)1 << 63, SIZE_MAX - 4095, SIZE_MAX - 1, SIZE_MAX};
    size_t many = sizeof borders / sizeof *borders;
    int good = 1;
    const uint8_t *l = lay(&list_lot, some, strlen(some), 1, 1);
    uint8_t *i = lay(&image_lot, image, BLOCK, 1, 0);
    const uint8_t *d = lay(&piece_lot, "0123456789", 10, 1, 1);
    muongrabi_state opened;
    muongrabi_refusal refusal = muongrabi_open(l, strlen(some), BLOCK, 0, 0, 0, 0, &opened);
    check(refusal.number == 0, "a list to disturb");
    muongrabi_fields open = fields_of(&opened);
    for (size_t a = 0; a < many; a++) {
        for (size_t b = 0; b < many; b++) {
            for (size_t c = 0; c < 11; c++) {
                muongrabi_fields fields = open;
                size_t *disturbed[] = {&fields.at, &fields.line, &fields.into, &fields.count, &fields.sizes[0],
                                       &fields.sizes[MUONGRABI_MOST_STASHES - 1], &fields.lengths.result, &fields.lengths.patch, &fields.total,
                                       &fields.ready, &fields.stretches};
                *disturbed[c] = borders[a];
                *disturbed[(c + 1 + a % 10) % 11] = borders[b];
                muongrabi_state *called = lay_fields(&fields, (int)(a + b) % 2);
                muongrabi_answer answer = muongrabi_call(l, strlen(some), i, BLOCK, none.first, 0, none.first, 0, none.first, 0, none.first, 0,
                                                         d, 10, called);
                /* The total wraps, and no stop is near. */
                good &= sound(&answer) && answer.outcome != MUONGRABI_STOP && fields_of(called).total == fields.total + answer.taken;
                if (fields.ready != 0 || fields.stretches != 0) good &= answer.number == 17;
                if (answer.number == 17) good &= answer.taken == 0 && has(called, &fields);
            }
        }
    }
    check(good, "states of border values");
}

/*
 * Where a line is wrong: in an opening, in a run, and in a call over a list altered since. The state keeps it, and a call over the good list
 * repeats it. A call gives 17 where the header is ill formed now, which has no byte.
 */
static void faults(void)
{
    static const struct {
        const char *text;
        muongrabi_refusal refusal;
    } lists[] = {
        {"", {3, 1, 0}},
        {"x", {3, 1, 0}},
        {"3\n0\n0\n", {3, 4, 6}},
        {"3\n0\n0\n00\n", {3, 4, 7}},
        {"3\n0\n0\n0", {3, 4, 7}},
        {"3\n4294967296\n0\n0\n", {3, 2, 11}},
        {"3\n0\n0\n0\nzap\n", {6, 5, 9}},
        {"3\n0\n0\n0\n\n", {6, 5, 8}},
        {"3\n0\n0\n0\nzero 3,0,1\n", {6, 5, 14}},
        {"3\n0\n0\n0\nzero 2,5,3\n", {6, 5, 18}},
        {"3\n0\n0\n0\nzero 2,5,0\n", {6, 5, 17}},
        {"3\n0\n0\n0\nzero 2,0,0\n", {6, 5, 17}},
        {"3\n0\n0\n0\nzero 2,1,1\n", {6, 5, 18}},
        {"3\n0\n0\n0\nnew 4,0,1,1,1\n", {6, 5, 21}},
        {"3\n0\n0\n0\nzero 2,0,1", {6, 5, 18}},
        {"3\n0\n0\n0\nzero 2,0,\x80\n", {6, 5, 17}},
        {"3\n1\n0\n0\nzero 2,0,1\nzero 2,0,1 \n", {6, 6, 29}},
        {"3\n0\n0\n0\nimgdif\n", {6, 5, 8}},
        {"3\n0\n0\n0\nimgdiff\n", {7, 5, 0}},
        {"3\n1\n0\n0\nzero 2,1,2\n", {8, 5, 0}},
    };
    static const char *good = "3\n0\n0\n0\n";
    static uint8_t image[BLOCK];
    lot none = new_lot(0);
    for (size_t k = 0; k < 2 * sizeof lists / sizeof *lists; k++) {
        int behind = k % 2;
        const char *text = lists[k / 2].text;
        size_t length = strlen(text);
        size_t number = lists[k / 2].refusal.number, line = lists[k / 2].refusal.line, byte = lists[k / 2].refusal.byte;
        fill(image, "A");
        const uint8_t *l = lay(&list_lot, text, length, behind, 1);
        uint8_t *i = lay(&image_lot, image, BLOCK, behind, 0);
        muongrabi_state *state = lay_no_state(behind);
        muongrabi_refusal refusal = muongrabi_open(l, length, BLOCK, 0, 0, 0, 0, state);
        check(refusal_is(&refusal, number, line, byte) && only_refused(state, &refusal), "an ill formed list");
        state = lay_no_state(behind);
        muongrabi_answer answer = muongrabi_run(l, length, i, BLOCK, none.first, 0, none.first, 0, none.first, 0, none.first, 0,
                                                none.first, 0, (const size_t *)(const void *)none.first, 0, state);
        check(is_refused(&answer, number, line, byte) && only_refused(state, &refusal), "a run over an ill formed list");
        check(holds(i, "A"), "the image after it");

        /* From where a good list with this header would begin. */
        muongrabi_fields fields;
        memset(&fields, 0, sizeof fields);
        fields.at = 8;
        fields.line = 5;
        fields.lengths = (muongrabi_lengths){.list = length, .image = BLOCK};
        state = lay_fields(&fields, behind);
        muongrabi_state before = *state;
        answer = muongrabi_call(l, length, i, BLOCK, none.first, 0, none.first, 0, none.first, 0, none.first, 0, none.first, 0, state);
        if (number == MUONGRABI_REFUSAL_HEADER_FORM) {
            check(is_refused(&answer, 17, 0, 0) && same(state, &before), "a call over an ill formed header");
            continue;
        }
        fields = fields_of(state);
        check(is_refused(&answer, number, line, byte) && refusal_is(&fields.refusal, number, line, byte), "a call over an ill formed line");
        check(holds(i, line == 5 ? "A" : "0"), "the image after that");
        before = *state;
        l = lay(&list_lot, good, strlen(good), behind, 1);
        answer = muongrabi_call(l, strlen(good), i, BLOCK, none.first, 0, none.first, 0, none.first, 0, none.first, 0, none.first, 0, state);
        check(is_refused(&answer, number, line, byte) && same(state, &before), "the same again");
    }
}

/* A state with bytes on both sides. */
static struct {
    uint8_t before[64];
    muongrabi_state state;
    uint8_t after[64];
} kept;

static int stayed(const uint8_t bytes[64])
{
    for (int k = 0; k < 64; k++)
        if (bytes[k] != 0xc3) return 0;
    return 1;
}

static uint8_t kept_stash[MUONGRABI_MOST_STASHES * BLOCK];

/* A call over the kept state; the bytes around it stay. */
static muongrabi_answer call_kept(const char *text, size_t length, uint8_t *image, uint8_t *work, const uint8_t *piece, size_t piece_length)
{
    memset(kept.before, 0xc3, sizeof kept.before);
    memset(kept.after, 0xc3, sizeof kept.after);
    muongrabi_answer answer = muongrabi_call((const uint8_t *)text, length, image, BLOCK, kept_stash, sizeof kept_stash, work, BLOCK, NULL, 0,
                                             NULL, 0, piece, piece_length, &kept.state);
    check(stayed(kept.before) && stayed(kept.after), "the bytes around a state");
    return answer;
}

/* Tables in which every row is another; 255 stashes of one block are held, at the first command line of this list. */
static muongrabi_fields full_but_one(const char *text)
{
    muongrabi_state opened;
    muongrabi_refusal refusal = muongrabi_open((const uint8_t *)text, strlen(text), BLOCK, sizeof kept_stash, BLOCK, 0, 0, &opened);
    check(refusal.number == 0, "a list for a full table");
    muongrabi_fields fields = fields_of(&opened);
    for (size_t k = 0; k < MUONGRABI_MOST_STASHES; k++) {
        memset(fields.hashes + 20 * k, (int)k, 20);
        fields.sizes[k] = 1;
    }
    fields.sizes[MUONGRABI_MOST_STASHES - 1] = 77;
    fields.count = MUONGRABI_MOST_STASHES - 1;
    return fields;
}

/* A state is changed where it lies: the tables to their last rows, nothing beside them, and nothing at all where a call is refused so. */
static void states_in_place(void)
{
    static uint8_t image[BLOCK], work[BLOCK], data[BLOCK];
    static char text[200];
    uint8_t *last_block = kept_stash + sizeof kept_stash - BLOCK;
    char a[41];
    fill(image, "A");
    memset(kept_stash, 'x', sizeof kept_stash);
    fill(work, "w");
    fill(data, "p");
    name_of("A", a);
    snprintf(text, sizeof text, "3\n1\n256\n256\nstash %s 2,0,1\nnew 2,0,1\nfree %s\n", a, a);
    size_t length = strlen(text);
    const muongrabi_fields full = full_but_one(text);

    /* 17, by a number, a row of either table or a length: nothing of the state is another. */
    for (int k = 0; k < 9; k++) {
        muongrabi_fields fields = full;
        if (k == 0) fields.at++;
        if (k == 1) fields.count = MUONGRABI_MOST_STASHES + 1;
        if (k == 2) memcpy(fields.hashes + 20 * 254, fields.hashes, 20);
        if (k == 3) fields.sizes[254] = 3;
        if (k == 4) fields.into = 1;
        if (k == 5) fields.stretches = 1;
        if (k == 6) fields.sizes[0] = 0;
        if (k == 7) fields.sizes[254] = 0;
        kept.state = state_of(&fields);
        muongrabi_answer answer = call_kept(text, k == 8 ? length - 1 : length, image, work, data, BLOCK);
        check(is_refused(&answer, 17, 0, 0), "17");
        check(has(&kept.state, &fields), "the state after 17");
    }
    /* A refusal that is held, whatever it is, with a table that is good, and with one that would be 17 without it. */
    static const muongrabi_refusal held[] = {{16, 9, 0}, {16, 9, 77}, {6, 5, 8}, {6, 0, SIZE_MAX}, {3, 1, 0}, {3, 7, 4194305}, {17, 0, 3},
                                             {20, 0, 0}, {99, 98, 97}, {SIZE_MAX, SIZE_MAX, SIZE_MAX}};
    for (size_t k = 0; k < 2 * sizeof held / sizeof *held; k++) {
        muongrabi_refusal refusal = held[k / 2];
        muongrabi_fields fields = full;
        fields.refusal = refusal;
        if (k % 2 == 1) fields.count = SIZE_MAX, fields.stretches = 7;
        kept.state = state_of(&fields);
        muongrabi_answer answer = call_kept(text, length, image, work, data, BLOCK);
        check(is_refused(&answer, refusal.number, refusal.line, refusal.byte), "a held refusal");
        check(has(&kept.state, &fields), "the state after a held refusal");
    }
    check(holds(image, "A") && holds(kept_stash, "x") && holds(last_block, "x") && holds(work, "w"), "the areas after those");

    /* The last rows are written, and no others: not while the work area is filled, and then with the stash. */
    kept.state = state_of(&full);
    muongrabi_answer answer = call_kept(text, length, image, work, NULL, 0);
    muongrabi_fields expected = full;
    expected.ready = 1;
    check(answer.outcome == MUONGRABI_STOP && answer.taken == 0 && has(&kept.state, &expected), "a stash that is ready");
    answer = call_kept(text, length, image, work, NULL, 0);
    expected.ready = 0;
    expected.count = MUONGRABI_MOST_STASHES;
    expected.line = 6;
    expected.at = (size_t)(strstr(text, "new") - text);
    uint8_t *last = expected.hashes + 20 * (MUONGRABI_MOST_STASHES - 1);
    muongrabi_digest(image, BLOCK, last);
    expected.sizes[MUONGRABI_MOST_STASHES - 1] = 1;
    check(answer.outcome == MUONGRABI_STOP && answer.taken == 0 && has(&kept.state, &expected), "a full table");
    answer = call_kept(text, length, image, work, NULL, 0);
    check(answer.outcome == MUONGRABI_MORE && answer.taken == 0 && has(&kept.state, &expected), "and more data");
    answer = call_kept(text, length, image, work, data, BLOCK);
    muongrabi_fields freed = fields_of(&kept.state);
    check(answer.outcome == MUONGRABI_DONE && answer.taken == BLOCK && freed.count == MUONGRABI_MOST_STASHES - 1, "one stash freed");
    check(memcmp(freed.hashes, full.hashes, 20 * (MUONGRABI_MOST_STASHES - 1)) == 0, "the hashes of those still held");
    check(holds(image, "p") && holds(last_block, "A") && holds(last_block - BLOCK, "x"), "the areas at the end");

    /* A run puts the state into its place, whatever was there, and a refused opening's too. */
    fill(image, "A");
    for (int k = 0; k < 2; k++) {
        memset(&kept, 0xc3, sizeof kept);
        size_t n = k == 0 ? length : 7;
        muongrabi_refusal refusal = muongrabi_open((const uint8_t *)text, n, BLOCK, sizeof kept_stash, BLOCK, 0, 0, &kept.state);
        check(stayed(kept.before) && stayed(kept.after), "the bytes around an opening's state");
        muongrabi_fields opened = fields_of(&kept.state);
        check(refusal_is(&opened.refusal, refusal.number, refusal.line, refusal.byte), "an opening's refusal in its state");
        memset(&kept, 0xc3, sizeof kept);
        answer = muongrabi_run((const uint8_t *)text, n, image, BLOCK, kept_stash, sizeof kept_stash, work, BLOCK, NULL, 0, NULL, 0, NULL, 0,
                               NULL, 0, &kept.state);
        check(stayed(kept.before) && stayed(kept.after), "the bytes around a run's state");
        if (k == 0) {
            opened.count = 1;
            opened.line = 6;
            opened.at = (size_t)(strstr(text, "new") - text);
            opened.sizes[0] = 1;
            memcpy(opened.hashes, last, 20);
        }
        check(answer.outcome == (k == 0 ? MUONGRABI_MORE : MUONGRABI_REFUSED) && answer.taken == 0, "a run's answer");
        check(has(&kept.state, &opened), "a run's state");
    }
}

/* What a call finds and what it leaves, in letters, one to a block. */
typedef struct {
    size_t outcome, taken, line, ready, stretches, count;
    const char *image, *stash, *work, *result;
} left;

/* Two bytes strings of one length mixed, byte by byte. */
static void mix(uint8_t *out, const uint8_t *before, size_t length, unsigned *dice)
{
    for (size_t k = 0; k < length; k++) {
        *dice = *dice * 1103515245u + 12345u;
        if (*dice >> 31) out[k] = before[k];
    }
}

/*
 * A list with every kind of stop, call by call. Before each call the bytes of the state are stored and read again. After it, the call is made again
 * from them over image and areas as a cut may have left them: what the call wrote is there in part.
 */
static void every_stop(void)
{
    static const left calls[] = {
        /* zero, new, the work area filled for a stash: the piece's second block is not taken */
        {MUONGRABI_STOP, BLOCK, 7, 1, 0, 0, "ABCDEFp0", "xxxxxxx", "ABww", "kk"},
        {MUONGRABI_STOP, 0, 8, 0, 0, 1, "ABCDEFp0", "ABxxxxx", "ABww", "kk"},
        {MUONGRABI_STOP, 0, 8, 1, 0, 1, "ABCDEFp0", "ABxxxxx", "CDEw", "kk"},
        {MUONGRABI_STOP, 0, 9, 0, 0, 2, "ABCDEFp0", "ABCDExx", "CDEw", "kk"},
        {MUONGRABI_STOP, 0, 9, 1, 0, 2, "ABCDEFp0", "ABCDExx", "FpEw", "kk"},
        {MUONGRABI_STOP, 0, 10, 0, 0, 3, "ABCDEFp0", "ABCDEFp", "FpEw", "kk"},
        /* a move over its own source, and the same line again, which is finished */
        {MUONGRABI_STOP, 0, 10, 1, 0, 3, "ABCDEFp0", "ABCDEFp", "ABCw", "kk"},
        {MUONGRABI_STOP, 0, 11, 0, 0, 3, "AABCEFp0", "ABCDEFp", "ABCw", "kk"},
        {MUONGRABI_STOP, 0, 12, 0, 0, 3, "AABCEFp0", "ABCDEFp", "ABCw", "kk"},
        /* a free in three stretches, the last one shorter */
        {MUONGRABI_STOP, 0, 12, 0, 1, 3, "AABCEFp0", "CDCDEFp", "ABCw", "kk"},
        {MUONGRABI_STOP, 0, 12, 0, 2, 3, "AABCEFp0", "CDEFEFp", "ABCw", "kk"},
        {MUONGRABI_STOP, 0, 13, 0, 0, 2, "AABCEFp0", "CDEFpFp", "ABCw", "kk"},
        /* a free of the youngest, which does not stop; new, and a bsdiff */
        {MUONGRABI_STOP, BLOCK, 15, 1, 0, 1, "AABCErp0", "CDEFpFp", "rBCw", "sk"},
        {MUONGRABI_STOP, 0, 16, 0, 0, 1, "AABCErps", "CDEFpFp", "rBCw", "sk"},
        {MUONGRABI_DONE, 0, 17, 0, 0, 1, "0ABCErps", "CDEFpFp", "rBCw", "sk"},
    };
    static uint8_t image[8 * BLOCK], stash[7 * BLOCK], work[4 * BLOCK], result[2 * BLOCK], data[2 * BLOCK], stored[MUONGRABI_SAVED];
    static uint8_t before[sizeof image + sizeof stash + sizeof work + sizeof result];
    static char text[1500];
    char ab[41], cde[41], fp[41], abc[41], r[41], s[41];
    name_of("AB", ab);
    name_of("CDE", cde);
    name_of("Fp", fp);
    name_of("ABC", abc);
    name_of("r", r);
    name_of("s", s);
    fill(data, "pr");
    make_patch();
    size_t length = (size_t)snprintf(text, sizeof text,
        "3\n10\n3\n7\nzero 2,7,8\nnew 2,6,7\nstash %s 2,0,2\nstash %s 2,2,5\nstash %s 2,5,7\nmove %s 2,1,4 3 2,0,3\nmove %s 2,1,4 3 2,0,3\n"
        "free %s\nfree %s\nnew 2,5,6\nbsdiff 0 %zu %s %s 2,7,8 1 2,5,6\nerase 2,0,1\n",
        ab, cde, fp, abc, abc, ab, fp, patch_length, r, s);
    const uint8_t *l = (const uint8_t *)text;
    /* All the data at once, or a block where one is needed and an empty piece elsewhere; and with a cut in each segment. */
    for (int way = 0; way < 4; way++) {
        unsigned dice = 1;
        int empty = way % 2, cut = way / 2;
        fill(image, "ABCDEFGH");
        fill(stash, "xxxxxxx");
        fill(work, "wwww");
        fill(result, "kk");
        muongrabi_state state;
        muongrabi_refusal refusal = muongrabi_open(l, length, sizeof image, sizeof stash, sizeof work, sizeof result, patch_length, &state);
        check(refusal.number == 0, "a list with every stop");
        muongrabi_fields fields = fields_of(&state);
        for (size_t k = 0; k < sizeof calls / sizeof *calls; k++) {
            const left *then = &calls[k];
            const uint8_t *piece = data + fields.total;
            size_t n = empty ? then->taken : sizeof data - fields.total;
            memcpy(stored, state.bytes, sizeof stored);
            memcpy(before, image, sizeof image);
            memcpy(before + sizeof image, stash, sizeof stash);
            memcpy(before + sizeof image + sizeof stash, work, sizeof work);
            memcpy(before + sizeof image + sizeof stash + sizeof work, result, sizeof result);
            for (int again = 0; again <= 3 * cut; again++) {
                if (again > 0) {
                    mix(image, before, sizeof image, &dice);
                    mix(stash, before + sizeof image, sizeof stash, &dice);
                    mix(work, before + sizeof image + sizeof stash, sizeof work, &dice);
                    mix(result, before + sizeof image + sizeof stash + sizeof work, sizeof result, &dice);
                }
                check(muongrabi_restore(stored, sizeof stored, &fields) == 0 && fields.total == (size_t)(piece - data), "a state read at a stop");
                memcpy(state.bytes, stored, sizeof stored);
                muongrabi_answer answer = muongrabi_call(l, length, image, sizeof image, stash, sizeof stash, work, sizeof work,
                                                         result, sizeof result, patch, patch_length, piece, n, &state);
                check(sound(&answer) && answer.outcome == then->outcome && answer.taken == then->taken, "a stop's answer");
                fields = fields_of(&state);
                check(fields.line == then->line && fields.ready == then->ready && fields.stretches == then->stretches && fields.count == then->count &&
                      fields.total == (size_t)(piece - data) + then->taken && fields.into == 0, "the state at a stop");
                check(holds(image, then->image) && holds(stash, then->stash) && holds(work, then->work) && holds(result, then->result),
                      "image and areas at a stop");
            }
        }
        check(fields.total == sizeof data && fields.at == length, "the end behind every stop");
    }
}

/* May be: - not touched, r read, w written. */
static void allow(const lot *in, const char *pages)
{
    for (size_t k = 0; k * BLOCK < in->room; k++) {
        int may = pages[k] == 'w' ? PROT_READ | PROT_WRITE : pages[k] == 'r' ? PROT_READ : PROT_NONE;
        if (mprotect(in->first + k * BLOCK, BLOCK, may) != 0) exit(2);
    }
}

/*
 * One call over one line and an `erase` of block 0 behind it, from a state made by hand, which holds ST, UVW and XY. A block is a page here: what
 * the call may not read or write may not be touched. What is ready is written as it is, whatever hash it has and whatever the target holds.
 */
static void what_a_step_touches(void)
{
    static char st[41], uvw[41], xy[41], de[41], bc[41], gh[41], r[41], s[41], kl[41], text[400];
    name_of("ST", st);
    name_of("UVW", uvw);
    name_of("XY", xy);
    name_of("DE", de);
    name_of("BC", bc);
    name_of("Gr", gh);
    name_of("r", r);
    name_of("s", s);
    name_of("kl", kl);
    make_patch();
    /* Each %s is the next of the names. */
    const struct {
        const char *line, *names[3];
        size_t ready, stretches;
        const char *image, *stash, *work, *result, *patch;
        left then;
    } steps[] = {
        {"move %s 2,1,3 2 2,3,5", {de}, 0, 0, "-rrrr---", "---------", "ww--", "---", "--",
         {MUONGRABI_STOP, 0, 5, 1, 0, 3, "ABCDEFGr", "STUVWXYyz", "DEcd", "klm"}},
        {"move %s 2,1,3 2 2,3,5", {de}, 1, 0, "-ww-----", "---------", "rr--", "---", "--",
         {MUONGRABI_STOP, 0, 6, 0, 0, 3, "AabDEFGr", "STUVWXYyz", "abcd", "klm"}},
        {"move %s 2,1,3 2 2,3,5", {bc}, SIZE_MAX, 0, "-ww-----", "---------", "rr--", "---", "--",
         {MUONGRABI_STOP, 0, 6, 0, 0, 3, "AabDEFGr", "STUVWXYyz", "abcd", "klm"}},
        {"move %s 2,1,3 2 2,3,5", {bc}, 0, 0, "-rr-----", "---------", "----", "---", "--",
         {MUONGRABI_STOP, 0, 6, 0, 0, 3, "ABCDEFGr", "STUVWXYyz", "abcd", "klm"}},
        {"move %s 2,5,8 3 - %s:2,0,3", {uvw, uvw}, 0, 0, "-----rrr", "--rrr----", "www-", "---", "--",
         {MUONGRABI_STOP, 0, 5, 1, 0, 3, "ABCDEFGr", "STUVWXYyz", "UVWd", "klm"}},
        {"move %s 2,5,8 3 - %s:2,0,3", {uvw, uvw}, 1, 0, "-----www", "---------", "rrr-", "---", "--",
         {MUONGRABI_STOP, 0, 6, 0, 0, 3, "ABCDEabc", "STUVWXYyz", "abcd", "klm"}},
        {"stash %s 2,6,8", {gh}, 0, 0, "------rr", "---------", "ww--", "---", "--",
         {MUONGRABI_STOP, 0, 5, 1, 0, 3, "ABCDEFGr", "STUVWXYyz", "Grcd", "klm"}},
        {"stash %s 2,6,8", {gh}, 1, 0, "--------", "-------ww", "rr--", "---", "--",
         {MUONGRABI_STOP, 0, 6, 0, 0, 4, "ABCDEFGr", "STUVWXYab", "abcd", "klm"}},
        {"bsdiff 0 4200 %s %s 2,0,1 1 2,7,8", {r, s}, 0, 0, "r------r", "---------", "w---", "w--", "rr",
         {MUONGRABI_STOP, 0, 5, 1, 0, 3, "ABCDEFGr", "STUVWXYyz", "rbcd", "slm"}},
        {"bsdiff 0 4200 %s %s 2,0,1 1 2,7,8", {r, s}, 1, 0, "w-------", "---------", "----", "r--", "--",
         {MUONGRABI_STOP, 0, 6, 0, 0, 3, "kBCDEFGr", "STUVWXYyz", "abcd", "klm"}},
        {"bsdiff 7 0 %s %s 2,0,2 1 2,7,8", {r, kl}, 2, 0, "ww------", "---------", "----", "rr-", "--",
         {MUONGRABI_STOP, 0, 6, 0, 0, 3, "klCDEFGr", "STUVWXYyz", "abcd", "klm"}},
        {"bsdiff 0 4200 %s %s 2,1,3 1 2,7,8", {r, bc}, 0, 0, "-rr-----", "---------", "----", "---", "--",
         {MUONGRABI_STOP, 0, 6, 0, 0, 3, "ABCDEFGr", "STUVWXYyz", "abcd", "klm"}},
        {"free %s", {st}, 0, 0, "--------", "wwrr-----", "----", "---", "--",
         {MUONGRABI_STOP, 0, 5, 0, 1, 3, "ABCDEFGr", "UVUVWXYyz", "abcd", "klm"}},
        {"free %s", {st}, 0, 1, "--------", "--wwrr---", "----", "---", "--",
         {MUONGRABI_STOP, 0, 5, 0, 2, 3, "ABCDEFGr", "STWXWXYyz", "abcd", "klm"}},
        {"free %s", {st}, 0, 2, "--------", "----w-r--", "----", "---", "--",
         {MUONGRABI_STOP, 0, 6, 0, 0, 2, "ABCDEFGr", "STUVYXYyz", "abcd", "klm"}},
        {"free %s", {uvw}, 0, 0, "--------", "--ww-rr--", "----", "---", "--",
         {MUONGRABI_STOP, 0, 6, 0, 0, 2, "ABCDEFGr", "STXYWXYyz", "abcd", "klm"}},
        {"free %s", {xy}, 0, 0, "w-------", "---------", "----", "---", "--",
         {MUONGRABI_DONE, 0, 7, 0, 0, 2, "0BCDEFGr", "STUVWXYyz", "abcd", "klm"}},
        /* 17: a ready mark where nothing can be ready, or what is ready would be refused */
        {"zero 2,0,1", {st}, 1, 0, "--------", "---------", "----", "---", "--", {MUONGRABI_REFUSED, 0, 5, 1, 0, 3, "A", "S", "a", "k"}},
        {"erase 2,0,1", {st}, SIZE_MAX, 0, "--------", "---------", "----", "---", "--", {MUONGRABI_REFUSED, 0, 5, SIZE_MAX, 0, 3, "A", "S", "a", "k"}},
        {"new 2,0,1", {st}, 1, 0, "--------", "---------", "----", "---", "--", {MUONGRABI_REFUSED, 0, 5, 1, 0, 3, "A", "S", "a", "k"}},
        {"free %s", {st}, 1, 0, "--------", "---------", "----", "---", "--", {MUONGRABI_REFUSED, 0, 5, 1, 0, 3, "A", "S", "a", "k"}},
        {"free %s", {st}, 1, 1, "--------", "---------", "----", "---", "--", {MUONGRABI_REFUSED, 0, 5, 1, 1, 3, "A", "S", "a", "k"}},
        {"imgdiff", {st}, 1, 0, "--------", "---------", "----", "---", "--", {MUONGRABI_REFUSED, 0, 5, 1, 0, 3, "A", "S", "a", "k"}},
        {"move %s 2,1,3 2 2,3,", {de}, 1, 0, "--------", "---------", "----", "---", "--", {MUONGRABI_REFUSED, 0, 5, 1, 0, 3, "A", "S", "a", "k"}},
        {"move %s 2,1,3 2 2,7,9", {de}, 1, 0, "--------", "---------", "----", "---", "--", {MUONGRABI_REFUSED, 0, 5, 1, 0, 3, "A", "S", "a", "k"}},
        {"move %s 2,1,3 2 - %s:2,0,2", {de, de}, 1, 0, "--------", "---------", "----", "---", "--",
         {MUONGRABI_REFUSED, 0, 5, 1, 0, 3, "A", "S", "a", "k"}},
        {"stash %s 2,0,2", {xy}, 1, 0, "--------", "---------", "----", "---", "--", {MUONGRABI_REFUSED, 0, 5, 1, 0, 3, "A", "S", "a", "k"}},
        {"stash %s 2,0,3", {de}, 1, 0, "--------", "---------", "----", "---", "--", {MUONGRABI_REFUSED, 0, 5, 1, 0, 3, "A", "S", "a", "k"}},
        {"bsdiff 0 4201 %s %s 2,0,1 1 2,7,8", {r, s}, 1, 0, "--------", "---------", "----", "---", "--",
         {MUONGRABI_REFUSED, 0, 5, 1, 0, 3, "A", "S", "a", "k"}},
        /* 17: stretches of no `free`, of one that holds nothing, and as many as there are, or more */
        {"move %s 2,1,3 2 2,3,5", {de}, 0, 1, "--------", "---------", "----", "---", "--", {MUONGRABI_REFUSED, 0, 5, 0, 1, 3, "A", "S", "a", "k"}},
        {"move %s 2,1,3 2 2,3,5", {de}, 1, 1, "--------", "---------", "----", "---", "--", {MUONGRABI_REFUSED, 0, 5, 1, 1, 3, "A", "S", "a", "k"}},
        {"zero 2,0,1", {st}, 0, 1, "--------", "---------", "----", "---", "--", {MUONGRABI_REFUSED, 0, 5, 0, 1, 3, "A", "S", "a", "k"}},
        {"free %s", {de}, 0, 1, "--------", "---------", "----", "---", "--", {MUONGRABI_REFUSED, 0, 5, 0, 1, 3, "A", "S", "a", "k"}},
        {"free %s", {st}, 0, 3, "--------", "---------", "----", "---", "--", {MUONGRABI_REFUSED, 0, 5, 0, 3, 3, "A", "S", "a", "k"}},
        {"free %s", {st}, 0, SIZE_MAX, "--------", "---------", "----", "---", "--", {MUONGRABI_REFUSED, 0, 5, 0, SIZE_MAX, 3, "A", "S", "a", "k"}},
        {"free %s", {st}, 0, SIZE_MAX / 2 + 2, "--------", "---------", "----", "---", "--",
         {MUONGRABI_REFUSED, 0, 5, 0, SIZE_MAX / 2 + 2, 3, "A", "S", "a", "k"}},
        {"free %s", {uvw}, 0, 1, "--------", "---------", "----", "---", "--", {MUONGRABI_REFUSED, 0, 5, 0, 1, 3, "A", "S", "a", "k"}},
        {"free %s", {xy}, 0, 1, "--------", "---------", "----", "---", "--", {MUONGRABI_REFUSED, 0, 5, 0, 1, 3, "A", "S", "a", "k"}},
    };
    lot i = new_lot(8), h = new_lot(9), w = new_lot(4), t = new_lot(3), p = new_lot(2);
    const char *rooms[] = {"wwwwwwww", "wwwwwwwww", "wwww", "www", "ww"};
    for (size_t k = 0; k < sizeof steps / sizeof *steps; k++) {
        char line[300];
        int refused = steps[k].then.outcome == MUONGRABI_REFUSED;
        snprintf(line, sizeof line, steps[k].line, steps[k].names[0], steps[k].names[1], steps[k].names[2]);
        size_t length = (size_t)snprintf(text, sizeof text, "3\n0\n4\n9\n%s\nerase 2,0,1\n", line);
        const lot *all[] = {&i, &h, &w, &t, &p};
        for (int n = 0; n < 5; n++) allow(all[n], rooms[n]);
        fill(i.first, "ABCDEFGr");
        fill(h.first, "STUVWXYyz");
        fill(w.first, "abcd");
        fill(t.first, "klm");
        memcpy(p.first, patch, patch_length);
        muongrabi_fields before;
        memset(&before, 0, sizeof before);
        before.at = 8;
        before.line = 5;
        before.count = 3;
        before.sizes[0] = 2, before.sizes[1] = 3, before.sizes[2] = 2;
        muongrabi_digest(h.first, 2 * BLOCK, before.hashes);
        muongrabi_digest(h.first + 2 * BLOCK, 3 * BLOCK, before.hashes + 20);
        muongrabi_digest(h.first + 5 * BLOCK, 2 * BLOCK, before.hashes + 40);
        before.total = SIZE_MAX - 7;
        before.ready = steps[k].ready;
        before.stretches = steps[k].stretches;
        before.lengths = (muongrabi_lengths){length, i.room, h.room, w.room, t.room, patch_length};
        const char *pages[] = {steps[k].image, steps[k].stash, steps[k].work, steps[k].result, steps[k].patch};
        for (int n = 0; n < 5; n++) allow(all[n], pages[n]);
        muongrabi_state *called = lay_fields(&before, k % 2);
        muongrabi_answer answer = muongrabi_call(lay(&list_lot, text, length, k % 2, 1), length, i.first, i.room, h.first, h.room, w.first, w.room,
                                                 t.first, t.room, p.first, patch_length, lay(&piece_lot, "piece", 5, 1, 1), 5, called);
        for (int n = 0; n < 5; n++) allow(all[n], rooms[n]);
        const left *then = &steps[k].then;
        check(answer.outcome == then->outcome && answer.taken == 0 && sound(&answer), line);
        muongrabi_fields after = fields_of(called);
        check(after.line == then->line && after.ready == then->ready && after.stretches == then->stretches && after.count == then->count &&
              after.total == before.total, line);
        check(holds(i.first, then->image) && holds(h.first, then->stash) && holds(w.first, then->work) && holds(t.first, then->result), line);
        if (refused) check(is_refused(&answer, 17, 0, 0) && has(called, &before), line);
        if (!refused && after.count == 2) {
            /* The younger ones are as they were. */
            size_t gone = steps[k].names[0] == st ? 0 : steps[k].names[0] == uvw ? 1 : 2;
            memmove(before.hashes + 20 * gone, before.hashes + 20 * (gone + 1), 20 * (2 - gone));
            for (size_t n = gone; n < 2; n++) before.sizes[n] = before.sizes[n + 1];
            check(memcmp(after.hashes, before.hashes, 40) == 0 && memcmp(after.sizes, before.sizes, 2 * sizeof(size_t)) == 0, line);
        }
    }

    /* 17: a stash of no blocks, at each place, at a line that does not look at it. Past the count there may be one. */
    for (size_t k = 0; k < 4; k++) {
        size_t length = (size_t)snprintf(text, sizeof text, "3\n0\n4\n9\nerase 2,0,1\n");
        muongrabi_fields before;
        memset(&before, 0, sizeof before);
        before.at = 8;
        before.line = 5;
        before.count = 3;
        for (size_t n = 0; n < 3; n++) {
            memset(before.hashes + 20 * n, (int)n, 20);
            before.sizes[n] = n == k ? 0 : 2;
        }
        before.lengths = (muongrabi_lengths){length, i.room, h.room, w.room, t.room, patch_length};
        muongrabi_state *called = lay_fields(&before, k % 2);
        fill(i.first, "A");
        muongrabi_answer answer = muongrabi_call(lay(&list_lot, text, length, k % 2, 1), length, i.first, i.room, h.first, h.room, w.first, w.room,
                                                 t.first, t.room, p.first, patch_length, NULL, 0, called);
        if (k < 3) check(is_refused(&answer, 17, 0, 0) && has(called, &before) && holds(i.first, "A"), "a stash of no blocks");
        else check(answer.outcome == MUONGRABI_DONE && holds(i.first, "0"), "no stash of no blocks");
    }

    /* A ready mark at the text's end. */
    muongrabi_state state;
    muongrabi_open((const uint8_t *)"3\n0\n0\n0\n", 8, 0, 0, 0, 0, 0, &state);
    muongrabi_fields fields = fields_of(&state);
    fields.ready = 1;
    state = state_of(&fields);
    muongrabi_answer answer = muongrabi_call((const uint8_t *)"3\n0\n0\n0\n", 8, NULL, 0, NULL, 0, NULL, 0, NULL, 0, NULL, 0, NULL, 0, &state);
    check(is_refused(&answer, 17, 0, 0) && has(&state, &fields), "a ready mark at the end");
}

static const size_t marks[] = {0, 5122, 7172, 7230, 7256};

static int in_a_mark(size_t at)
{
    for (size_t k = 0; k < sizeof marks / sizeof *marks; k++)
        if (at == marks[k] || at == marks[k] + 1) return 1;
    return 0;
}

/* Fields where the others lie. */
static muongrabi_fields *lay_open(const muongrabi_fields *fields, int behind)
{
    return (muongrabi_fields *)(void *)lay(&fields_lot, fields, sizeof *fields, behind, 0);
}

/* The bytes give 20, and the fields stay, whatever they are. */
static int is_none(const uint8_t *bytes, size_t length)
{
    muongrabi_fields before;
    int good = 1;
    for (int behind = 0; behind < 2; behind++) {
        memset(&before, behind ? 0x5a : 0xff, sizeof before);
        muongrabi_fields *fields = lay_open(&before, behind);
        good &= muongrabi_restore(bytes, length, fields) == MUONGRABI_REFUSAL_NO_SAVED_FORM && memcmp(fields, &before, sizeof before) == 0;
    }
    return good;
}

/* States of any fields, possible or not, against the pages; and bytes that are none. */
static void saved_forms(void)
{
    static uint8_t expected[MUONGRABI_SAVED], longer[MUONGRABI_SAVED + 100];
    muongrabi_fields fields, other;
    unsigned dice = 7;
    memset(&other, 0xa5, sizeof other);
    for (int k = 0; k < 64; k++) {
        /* All of one byte, each number a border, or any bytes. */
        size_t numbers[sizeof fields / sizeof(size_t)];
        static const size_t borders[] = {0, 1, 255, 256, 257, 300, SIZE_MAX, SIZE_MAX - 1, (size_t)1 << 63, (size_t)1 << 32, 20};
        for (size_t j = 0; j < sizeof numbers / sizeof *numbers; j++) {
            dice = dice * 1103515245u + 12345u;
            numbers[j] = k == 0 ? 0 : k == 1 ? SIZE_MAX : k % 2 ? borders[(dice >> 16) % 11] : (size_t)dice * 0x9e3779b97f4a7c15u;
        }
        memcpy(&fields, numbers, sizeof fields);
        const muongrabi_fields *from = lay_open(&fields, k % 2);
        mprotect(fields_lot.first, fields_lot.room, PROT_READ);
        muongrabi_state *state = lay_no_state(k / 2 % 2);
        muongrabi_save(from, state);
        form_of(&fields, expected);
        check(memcmp(state->bytes, expected, sizeof expected) == 0, "a saved form");
        mprotect(state_lot.first, state_lot.room, PROT_READ);
        muongrabi_fields *to = lay_open(&other, k / 4 % 2);
        check(muongrabi_restore(state->bytes, sizeof state->bytes, to) == 0 && memcmp(to, &fields, sizeof fields) == 0, "a state read back");
    }

    /* Each byte altered: 20 in a mark, else the state of which these are the saved form. In a mark, to every other value. */
    int good = 1;
    for (size_t at = 0; at < sizeof expected; at++) {
        for (unsigned change = 1; change < 256; change += in_a_mark(at) ? 1 : 256) {
            uint8_t form[MUONGRABI_SAVED];
            memcpy(form, expected, sizeof form);
            form[at] ^= (uint8_t)(in_a_mark(at) ? change : 1 + at % 255);
            const uint8_t *bytes = lay(&form_lot, form, sizeof form, (int)(at % 2), 1);
            if (in_a_mark(at)) {
                good &= is_none(bytes, sizeof form);
            } else {
                muongrabi_state again;
                good &= muongrabi_restore(bytes, sizeof form, &fields) == 0;
                muongrabi_save(&fields, &again);
                good &= memcmp(again.bytes, form, sizeof form) == 0;
            }
        }
    }
    check(good, "each byte of a saved form altered");

    /* Every other length, of good bytes and of more behind them. */
    good = 1;
    memcpy(longer, expected, sizeof expected);
    for (size_t n = 0; n <= sizeof longer; n += n < 16 || n + 16 > MUONGRABI_SAVED ? 1 : 61) {
        if (n == MUONGRABI_SAVED) continue;
        good &= is_none(lay(&form_lot, longer, n, (int)(n % 2), 1), n);
    }
    for (size_t n = MUONGRABI_SAVED - 1; n <= MUONGRABI_SAVED + 1; n += 2) good &= is_none(lay(&form_lot, longer, n, 1, 1), n);
    check(good, "bytes of another length");
    lot none = new_lot(0);
    check(is_none(none.first, 0), "no bytes");

    /* Memory of exactly the lengths that are lent, so that a sanitizer or valgrind sees its ends too. */
    for (size_t n = MUONGRABI_SAVED - 1; n <= MUONGRABI_SAVED + 1; n++) {
        muongrabi_fields *from = malloc(sizeof *from), *to = malloc(sizeof *to);
        muongrabi_state *state = malloc(sizeof *state);
        uint8_t *bytes = malloc(n);
        if (!from || !to || !state || !bytes) exit(2);
        *from = fields;
        muongrabi_save(from, state);
        memset(bytes, 0, n);
        memcpy(bytes, state->bytes, n < MUONGRABI_SAVED ? n : MUONGRABI_SAVED);
        size_t number = muongrabi_restore(bytes, n, to);
        check(n == MUONGRABI_SAVED ? number == 0 && memcmp(to, from, sizeof *to) == 0 : number == MUONGRABI_REFUSAL_NO_SAVED_FORM,
              "a saved form in allocated memory");
        free(from);
        free(to);
        free(state);
        free(bytes);
    }
}

/*
 * A call over bytes that are no state's: each byte of each mark altered, to every other value, two marks swapped, and no mark at all. Image, areas,
 * patch data and piece may not be touched then. 20 comes before all else: before a refusal that is held, before 17, and where no list is lent.
 */
static void calls_over_no_state(void)
{
    static const char *text = "3\n2\n0\n0\nzero 2,0,1\nnew 2,1,2\n";
    const char *rooms[] = {"ww", "w", "w", "w", "w", "w"}, *closed[] = {"--", "-", "-", "-", "-", "-"};
    lot i = new_lot(2), h = new_lot(1), w = new_lot(1), t = new_lot(1), p = new_lot(1), d = new_lot(1);
    const lot *all[] = {&i, &h, &w, &t, &p, &d};
    const char *letters[] = {"AB", "x", "w", "k", "p", "n"};
    size_t length = strlen(text);
    muongrabi_state opened;
    muongrabi_refusal refusal = muongrabi_open((const uint8_t *)text, length, i.room, h.room, w.room, t.room, p.room, &opened);
    check(refusal.number == 0, "a list to call without a state");
    for (int n = 0; n < 6; n++) {
        fill(all[n]->first, letters[n]);
        allow(all[n], closed[n]);
    }
    /* As it was opened, with a refusal that is held, and with fields that would be 17. */
    for (int kind = 0; kind < 3; kind++) {
        muongrabi_fields fields = fields_of(&opened);
        if (kind == 1) fields.refusal = (muongrabi_refusal){16, 9, 0};
        if (kind == 2) fields.line = 7;
        const muongrabi_state good_one = state_of(&fields);
        for (size_t k = 0; k < 12; k++) {
            int good = 1;
            for (unsigned change = 1; change < (k < 10 ? 256u : 2u); change++) {
                muongrabi_state none = good_one;
                if (k < 10) none.bytes[marks[k / 2] + k % 2] ^= (uint8_t)change;
                if (k == 10) memcpy(none.bytes + marks[3], "SL", 2), memcpy(none.bytes + marks[4], "SR", 2);
                if (k == 11) memset(none.bytes, 0, sizeof none.bytes);
                muongrabi_state *called = lay_state(&none, (int)(change % 2));
                const uint8_t *l = change % 3 ? lay(&list_lot, text, length, 1, 1) : NULL;
                muongrabi_answer answer = muongrabi_call(l, length, i.first, i.room, h.first, h.room, w.first, w.room, t.first, t.room,
                                                         p.first, p.room, d.first, d.room, called);
                good &= is_refused(&answer, MUONGRABI_REFUSAL_NO_SAVED_FORM, 0, 0) && same(called, &none);
            }
            check(good, "a call over a state with a mark altered");
        }
    }
    for (int n = 0; n < 6; n++) {
        allow(all[n], rooms[n]);
        check(holds(all[n]->first, letters[n]), "the areas after calls over no state");
    }
    /* With its marks put right the state is as good as before. */
    muongrabi_state state = opened;
    state.bytes[marks[2]] ^= 1;
    for (int again = 0; again < 2; again++) {
        muongrabi_answer answer = muongrabi_call((const uint8_t *)text, length, i.first, i.room, h.first, h.room, w.first, w.room, t.first, t.room,
                                                 p.first, p.room, d.first, d.room, &state);
        if (again == 0) check(is_refused(&answer, 20, 0, 0) && holds(i.first, "AB"), "a mark altered");
        else check(answer.outcome == MUONGRABI_DONE && answer.taken == BLOCK && holds(i.first, "0n"), "a mark put right");
        state.bytes[marks[2]] = 'S';
    }
}

/* A state is its bytes: handed on to each call at another place, whatever its address can be divided by, a run is the same, call by call. */
static void states_moved(size_t length)
{
    static uint8_t image[8 * BLOCK], data[3 * BLOCK], stash[3 * BLOCK], work[4 * BLOCK], result[2 * BLOCK];
    static uint8_t rooms[2][64 + sizeof(muongrabi_state) + 64];
    static muongrabi_state first[100];
    static muongrabi_answer answers[100];
    static size_t calls;
    fill(data, "pqr");
    for (int moved = 0; moved < 2; moved++) {
        fill(image, "ABCDEFGH");
        fill(stash, "xyz");
        fill(work, "stuv");
        fill(result, "kl");
        muongrabi_state *state = (muongrabi_state *)(void *)rooms[0];
        muongrabi_refusal refusal =
            muongrabi_open((const uint8_t *)list, length, sizeof image, sizeof stash, sizeof work, sizeof result, patch_length, state);
        int good = refusal.number == 0;
        size_t taken = 0, k = 0;
        muongrabi_answer answer;
        do {
            uint8_t *room = rooms[(k + 1) % 2];
            if (moved) {
                /* To the other room, a byte further each time. */
                memset(room, 0xc3, sizeof rooms[0]);
                state = memcpy(room + 1 + k % 63, state, sizeof *state);
            }
            size_t n = sizeof data - taken < 700 ? sizeof data - taken : 700;
            answer = muongrabi_call((const uint8_t *)list, length, image, sizeof image, stash, sizeof stash, work, sizeof work,
                                    result, sizeof result, patch, patch_length, data + taken, n, state);
            taken += answer.taken;
            if (moved) {
                for (size_t at = 0; at < sizeof rooms[0]; at++)
                    if (room + at < state->bytes || room + at >= state->bytes + sizeof state->bytes) good &= room[at] == 0xc3;
                good &= k < calls && same(state, &first[k]) && memcmp(&answer, &answers[k], sizeof answer) == 0;
            } else {
                first[k] = *state;
                answers[k] = answer;
            }
            k++;
        } while (k < 100 && (answer.outcome == MUONGRABI_STOP || answer.outcome == MUONGRABI_MORE));
        if (!moved) calls = k;
        check(good && k == calls && answer.outcome == MUONGRABI_DONE && taken == sizeof data, "a run with its state moved");
        check(holds(image, "p0HqBr0s") && holds(stash, "HBH") && holds(work, "rHqv") && holds(result, "sl"), "what such a run leaves");
    }
    check(calls > 16, "more calls than there are stops");
}

static uint8_t sparse_file[3 * BLOCK];
static size_t sparse_length;

/* Numbers of two or four bytes, the lowest first. */
static void put_number(uint32_t number, size_t bytes)
{
    for (; bytes > 0; bytes--, number >>= 8) sparse_file[sparse_length++] = (uint8_t)number;
}

static void put_header(uint32_t blocks, uint32_t chunks)
{
    sparse_length = 0;
    put_number(0xED26FF3A, 4);
    put_number(1, 2);
    put_number(0, 2);
    put_number(28, 2);
    put_number(12, 2);
    put_number(4096, 4);
    put_number(blocks, 4);
    put_number(chunks, 4);
    put_number(0, 4);
}

static void put_chunk(uint32_t kind, uint32_t blocks, const void *body, size_t body_length)
{
    put_number(kind, 4);
    put_number(blocks, 4);
    put_number(12 + (uint32_t)body_length, 4);
    if (body_length) memcpy(sparse_file + sparse_length, body, body_length);
    sparse_length += body_length;
}

/* Five blocks: raw, two filled, one kept, raw. The last chunk ends both file and image. */
static void make_sparse_file(void)
{
    static uint8_t raw[2 * BLOCK];
    fill(raw, "rs");
    put_header(5, 4);
    put_chunk(0xCAC1, 1, raw, BLOCK);
    put_chunk(0xCAC2, 2, "ffff", 4);
    put_chunk(0xCAC3, 1, NULL, 0);
    put_chunk(0xCAC1, 1, raw + BLOCK, BLOCK);
}

/* A sparse file, every beginning of it, and each of its bytes altered, against the pages. Of the first raw chunk's bytes only the last is. */
static void sparse_files(void)
{
    static uint8_t image[5 * BLOCK];
    fill(image, "ABCDE");
    make_sparse_file();
    for (int behind = 0; behind < 2; behind++) {
        uint8_t *i = lay(&image_lot, image, sizeof image, behind, 0);
        const uint8_t *f = lay(&file_lot, sparse_file, sparse_length, behind, 1);
        check(muongrabi_sparse_load(f, sparse_length, i, sizeof image) == 0 && holds(i, "rffDs"), "a sparse file");
        i = lay(&image_lot, image, sizeof image, behind, 0);
        int good = 1;
        for (size_t n = 0; n < sparse_length; n++) {
            f = lay(&file_lot, sparse_file, n, behind, 1);
            good &= muongrabi_sparse_load(f, n, i, sizeof image) == (n < 28 ? MUONGRABI_REFUSAL_SPARSE_HEADER : MUONGRABI_REFUSAL_SPARSE_CHUNK);
        }
        check(good && holds(i, "ABCDE"), "every beginning of a sparse file");
        good = 1;
        f = lay(&file_lot, sparse_file, sparse_length, behind, 1);
        for (size_t n = 0; n < sizeof image; n += n % 512 == 1 ? 510 : 1) {
            i = lay(&image_lot, image, n, behind, 0);
            good &= muongrabi_sparse_load(f, sparse_length, i, n) == MUONGRABI_REFUSAL_SPARSE_IMAGE && memcmp(i, image, n) == 0;
        }
        check(good, "every shorter image");
        good = 1;
        for (size_t at = 0; at < sparse_length; at += at == 39 ? BLOCK : 1) {
            static const uint8_t others[] = {0, 1, 0x7f, 0x80, 0xc4, 0xff};
            for (size_t k = 0; k < sizeof others; k++) {
                static uint8_t altered[3 * BLOCK];
                memcpy(altered, sparse_file, sparse_length);
                altered[at] = others[k];
                f = lay(&file_lot, altered, sparse_length, behind, 1);
                i = lay(&image_lot, image, sizeof image, behind, 0);
                uint32_t number = muongrabi_sparse_load(f, sparse_length, i, sizeof image);
                good &= number == 0 || (number >= 30 && number <= 36 && memcmp(i, image, sizeof image) == 0);
            }
        }
        check(good, "each byte of a sparse file altered");
    }

    lot none = new_lot(0);
    check(muongrabi_sparse_load(none.first, 0, none.first, 0) == 30, "no sparse file");
    put_header(0, 0);
    const uint8_t *f = lay(&file_lot, sparse_file, sparse_length, 1, 1);
    check(muongrabi_sparse_load(f, sparse_length, none.first, 0) == 0, "a sparse file of no blocks");
}

/* Memory of exactly the lengths that are lent, so that a sanitizer or valgrind sees its ends too. */
static void sparse_files_in_allocated_memory(void)
{
    make_sparse_file();
    for (size_t length = sparse_length - 1; length <= sparse_length + 1; length++) {
        uint8_t *file = malloc(length), *image = malloc(5 * BLOCK);
        if (!file || !image) exit(2);
        memset(file, 0, length);
        memcpy(file, sparse_file, length < sparse_length ? length : sparse_length);
        fill(image, "ABCDE");
        uint32_t number = muongrabi_sparse_load(file, length, image, 5 * BLOCK);
        uint32_t expected = length == sparse_length ? 0 : length < sparse_length ? MUONGRABI_REFUSAL_SPARSE_CHUNK : MUONGRABI_REFUSAL_SPARSE_END;
        check(number == expected && holds(image, number == 0 ? "rffDs" : "ABCDE"), "a sparse file in allocated memory");
        free(file);
        free(image);
    }
}

/* Null names no bytes, whatever length is given with it. */
static void null_pointers(void)
{
    static const char *empty = "3\n0\n0\n0\n";
    static const char *one = "3\n1\n0\n0\nnew 2,0,1\n";
    static uint8_t image[BLOCK], data[BLOCK];
    uint8_t nothing[20], hash[20];
    check(muongrabi_abi_6() == MUONGRABI_ABI, "the archive is of this header");
    muongrabi_digest((const uint8_t *)"", 0, nothing);
    muongrabi_digest(NULL, 0, hash);
    check(memcmp(hash, nothing, 20) == 0, "digest of null");
    muongrabi_digest(NULL, 99, hash);
    check(memcmp(hash, nothing, 20) == 0, "digest of null with a length");

    muongrabi_state state;
    muongrabi_refusal refusal = muongrabi_open(NULL, 0, 0, 0, 0, 0, 0, &state);
    check(refusal_is(&refusal, MUONGRABI_REFUSAL_HEADER_FORM, 1, 0), "a null list");
    muongrabi_refusal (*open)(const uint8_t *, size_t, size_t, size_t, size_t, size_t, size_t, muongrabi_state *) = muongrabi_open;
    refusal = open(NULL, 8, 0, 0, 0, 0, 0, &state);
    check(refusal_is(&refusal, MUONGRABI_REFUSAL_HEADER_FORM, 1, 0), "a null list with a length, through a function pointer");

    const uint8_t *list = (const uint8_t *)empty;
    muongrabi_open(list, strlen(empty), 0, 0, 0, 0, 0, &state);
    muongrabi_answer answer = muongrabi_call(list, strlen(empty), NULL, 0, NULL, 0, NULL, 0, NULL, 0, NULL, 0, NULL, 0, &state);
    check(answer.outcome == MUONGRABI_DONE && answer.taken == 0, "null areas");
    answer = muongrabi_call(NULL, strlen(empty), NULL, 0, NULL, 0, NULL, 0, NULL, 0, NULL, 0, NULL, 0, &state);
    check(answer.number == MUONGRABI_REFUSAL_STATE_IMPOSSIBLE, "a null list in a call");
    answer = muongrabi_run(list, strlen(empty), NULL, 0, NULL, 0, NULL, 0, NULL, 0, NULL, 0, NULL, 0, NULL, 0, &state);
    check(answer.outcome == MUONGRABI_DONE && answer.taken == 0, "a run over null areas");
    answer = muongrabi_run(list, strlen(empty), NULL, BLOCK, NULL, 1, NULL, 2, NULL, 3, NULL, 4, NULL, 5, NULL, 6, &state);
    check(answer.outcome == MUONGRABI_DONE && answer.taken == 0, "a run over null areas with lengths");

    list = (const uint8_t *)one;
    muongrabi_open(list, strlen(one), BLOCK, 0, 0, 0, 0, &state);
    answer = muongrabi_call(list, strlen(one), NULL, BLOCK, NULL, 0, NULL, 0, NULL, 0, NULL, 0, data, BLOCK, &state);
    check(answer.number == MUONGRABI_REFUSAL_STATE_IMPOSSIBLE && answer.taken == 0, "a null image with a length");
    answer = muongrabi_call(list, strlen(one), image, BLOCK, NULL, 0, NULL, 0, NULL, BLOCK, NULL, 9, NULL, BLOCK, &state);
    check(answer.outcome == MUONGRABI_MORE && answer.taken == 0, "a null piece with a length");
    muongrabi_answer (*called)(const uint8_t *, size_t, uint8_t *, size_t, uint8_t *, size_t, uint8_t *, size_t, uint8_t *, size_t,
                               const uint8_t *, size_t, const uint8_t *, size_t, muongrabi_state *) = muongrabi_call;
    answer = called(list, strlen(one), image, BLOCK, NULL, 0, NULL, 0, NULL, 0, NULL, 0, data, BLOCK, &state);
    check(answer.outcome == MUONGRABI_DONE && answer.taken == BLOCK, "null through a function pointer");

    check(is_none(NULL, 0), "null restored");
    check(is_none(NULL, MUONGRABI_SAVED), "null with a length restored");
    size_t (*restore)(const uint8_t *, size_t, muongrabi_fields *) = muongrabi_restore;
    muongrabi_fields fields = fields_of(&state);
    check(restore(NULL, MUONGRABI_SAVED, &fields) == MUONGRABI_REFUSAL_NO_SAVED_FORM && has(&state, &fields), "the same through a function pointer");

    make_sparse_file();
    check(muongrabi_sparse_load(NULL, sparse_length, image, BLOCK) == MUONGRABI_REFUSAL_SPARSE_HEADER, "a null sparse file with a length");
    check(muongrabi_sparse_load(sparse_file, sparse_length, NULL, 5 * BLOCK) == MUONGRABI_REFUSAL_SPARSE_IMAGE, "a null image of a sparse file");
    check(muongrabi_sparse_load(NULL, 0, NULL, 0) == MUONGRABI_REFUSAL_SPARSE_HEADER, "all null of a sparse file");
    put_header(0, 0);
    uint32_t (*load)(const uint8_t *, size_t, uint8_t *, size_t) = muongrabi_sparse_load;
    check(load(sparse_file, sparse_length, NULL, 99) == 0, "no blocks into null, through a function pointer");
}

static void refusal_texts(void)
{
    const char *other = muongrabi_refusal_text(SIZE_MAX);
    int good = 1;
    for (size_t k = 0; k <= MUONGRABI_REFUSAL_SPARSE_END + 1; k++) {
        int is_one = k <= MUONGRABI_REFUSAL_NO_SAVED_FORM || (k >= MUONGRABI_REFUSAL_SPARSE_HEADER && k <= MUONGRABI_REFUSAL_SPARSE_END);
        good &= (strcmp(muongrabi_refusal_text(k), other) != 0) == is_one;
        for (size_t j = 0; is_one && j < k; j++) good &= strcmp(muongrabi_refusal_text(k), muongrabi_refusal_text(j)) != 0;
    }
    check(good, "each refusal has a text of its own, and every other number one in common");
    check(strstr(muongrabi_refusal_text(MUONGRABI_REFUSAL_UNSUPPORTED), "imgdiff") != NULL, "texts stand at their numbers");
    check(strstr(muongrabi_refusal_text(MUONGRABI_REFUSAL_PATCH_MALFORMED), "malformed") != NULL, "texts stand at their numbers");
    check(strstr(muongrabi_refusal_text(MUONGRABI_REFUSAL_HASH_DIFFERS), "hash") != NULL, "texts stand at their numbers");
    check(strstr(muongrabi_refusal_text(MUONGRABI_REFUSAL_NO_SAVED_FORM), "saved form") != NULL, "texts stand at their numbers");
    check(strstr(muongrabi_refusal_text(MUONGRABI_REFUSAL_SPARSE_CHECKSUM), "0xCAC4") != NULL, "texts stand at their numbers");
}

/* From here on these names are the exports' own. */
#undef muongrabi_open
#undef muongrabi_call
#undef muongrabi_run
#undef muongrabi_save
#undef muongrabi_restore

/* So many numbers that no answer has, where answers lie. */
static uint64_t *lay_answer(size_t numbers, int behind)
{
    uint64_t none[5];
    memset(none, 0xa5, sizeof none);
    return (uint64_t *)(void *)lay(&answer_lot, none, numbers * sizeof *none, behind, 0);
}

static int answers(const uint64_t *answer, uint64_t outcome, uint64_t number, uint64_t line, uint64_t byte, uint64_t taken)
{
    return answer[0] == outcome && answer[1] == number && answer[2] == line && answer[3] == byte && answer[4] == taken;
}

/* What lies on the other side of an array of this length than the page is as it was. */
static int beside(const lot *in, size_t length, int behind, uint8_t before)
{
    const uint8_t *rest = behind ? in->first : in->first + length;
    for (size_t k = 0; k < in->room - length; k++)
        if (rest[k] != before) return 0;
    return 1;
}

/*
 * Each export writes its arrays whole, whatever they held, and not a byte beside them: a page that may not be touched is on one side of each, and bytes
 * that must stay on the other. With 20 it writes nothing but a call's answer.
 */
static void exports(void)
{
    static const char *text = "3\n1\n0\n0\nzero 2,0,1\n", *wrong = "3\n1\n0\n0\nzero 2,0,x\n";
    static uint8_t image[BLOCK];
    static const size_t no_cuts[1];
    uint8_t none = 0;
    size_t length = strlen(text);
    lot *arrays[] = {&state_lot, &answer_lot, &form_lot, &fields_lot};
    muongrabi_fields fields;
    memset(&fields, 0, sizeof fields);
    fields.at = 8;
    fields.line = 5;
    fields.lengths = (muongrabi_lengths){.list = length, .image = BLOCK};
    const muongrabi_state opened = state_of(&fields);
    fields.at = length;
    fields.line = 6;
    const muongrabi_state ended = state_of(&fields);
    const uint8_t *good_list = (const uint8_t *)text, *bad_list = (const uint8_t *)wrong;
    for (int way = 0; way < 4; way++) {
        int behind = way % 2, answer_behind = way / 2;
        for (size_t k = 0; k < sizeof arrays / sizeof *arrays; k++) {
            mprotect(arrays[k]->first, arrays[k]->room, PROT_READ | PROT_WRITE);
            memset(arrays[k]->first, 0xc3, arrays[k]->room);
        }
        muongrabi_state *state = lay_no_state(behind);
        uint64_t *answer = lay_answer(3, answer_behind);
        muongrabi_open(good_list, length, BLOCK, 0, 0, 0, 0, state->bytes, answer);
        check(answer[0] == 0 && answer[1] == 0 && answer[2] == 0 && same(state, &opened), "the opening itself");
        check(beside(&state_lot, sizeof *state, behind, 0xc3) && beside(&answer_lot, 24, answer_behind, 0xc3), "what lies beside its arrays");
        state = lay_no_state(behind);
        answer = lay_answer(3, answer_behind);
        muongrabi_open(bad_list, length, BLOCK, 0, 0, 0, 0, state->bytes, answer);
        muongrabi_refusal refusal = {answer[0], answer[1], answer[2]};
        check(refusal_is(&refusal, 6, 5, 17) && only_refused(state, &refusal), "the opening itself, refused");

        memset(answer_lot.first, 0xc3, answer_lot.room);
        fill(image, "A");
        state = lay_state(&opened, behind);
        answer = lay_answer(5, answer_behind);
        muongrabi_call(good_list, length, image, BLOCK, &none, 0, &none, 0, &none, 0, &none, 0, &none, 0, state->bytes, answer);
        check(answers(answer, MUONGRABI_DONE, 0, 0, 0, 0) && same(state, &ended) && holds(image, "0"), "the call itself");
        check(beside(&state_lot, sizeof *state, behind, 0xc3) && beside(&answer_lot, 40, answer_behind, 0xc3), "what lies beside its arrays");
        state = lay_state(&opened, behind);
        answer = lay_answer(5, answer_behind);
        muongrabi_call(bad_list, length, image, BLOCK, &none, 0, &none, 0, &none, 0, &none, 0, &none, 0, state->bytes, answer);
        check(answers(answer, MUONGRABI_REFUSED, 6, 5, 17, 0), "the call itself, refused");
        fill(image, "A");
        state = lay_no_state(behind);
        muongrabi_state before = *state;
        answer = lay_answer(5, answer_behind);
        muongrabi_call(good_list, length, image, BLOCK, &none, 0, &none, 0, &none, 0, &none, 0, &none, 0, state->bytes, answer);
        check(answers(answer, MUONGRABI_REFUSED, 20, 0, 0, 0) && same(state, &before) && holds(image, "A"), "the call itself over no state");
        check(beside(&state_lot, sizeof *state, behind, 0xc3) && beside(&answer_lot, 40, answer_behind, 0xc3), "what lies beside its arrays then");

        answer = lay_answer(5, answer_behind);
        muongrabi_run(good_list, length, image, BLOCK, &none, 0, &none, 0, &none, 0, &none, 0, &none, 0, no_cuts, 0, state->bytes, answer);
        check(answers(answer, MUONGRABI_DONE, 0, 0, 0, 0) && same(state, &ended) && holds(image, "0"), "the run itself");
        check(beside(&state_lot, sizeof *state, behind, 0xc3) && beside(&answer_lot, 40, answer_behind, 0xc3), "what lies beside its arrays");
        state = lay_no_state(behind);
        answer = lay_answer(5, answer_behind);
        muongrabi_run(bad_list, length, image, BLOCK, &none, 0, &none, 0, &none, 0, &none, 0, &none, 0, no_cuts, 0, state->bytes, answer);
        check(answers(answer, MUONGRABI_REFUSED, 6, 5, 17, 0) && only_refused(state, &refusal), "the run itself, refused");

        /* Each number is another, so that none can be taken for its neighbour. Tables and numbers stand alone. */
        size_t numbers[16];
        for (size_t k = 0; k < sizeof fields.hashes; k++) fields.hashes[k] = (uint8_t)(k * 7 + k / 256);
        for (size_t k = 0; k < MUONGRABI_MOST_STASHES; k++) fields.sizes[k] = 1000 + k;
        for (size_t k = 0; k < 16; k++) numbers[k] = SIZE_MAX / 17 * (k + 1);
        fields.count = numbers[0], fields.line = numbers[1], fields.at = numbers[2], fields.into = numbers[3], fields.total = numbers[4];
        fields.ready = numbers[5], fields.stretches = numbers[6];
        fields.refusal = (muongrabi_refusal){numbers[7], numbers[8], numbers[9]};
        fields.lengths = (muongrabi_lengths){numbers[10], numbers[11], numbers[12], numbers[13], numbers[14], numbers[15]};
        state = lay_no_state(behind);
        muongrabi_save(lay(&form_lot, fields.hashes, sizeof fields.hashes, behind, 1),
                       (const size_t *)(const void *)lay(&fields_lot, fields.sizes, sizeof fields.sizes, answer_behind, 1),
                       (const size_t *)(const void *)lay(&answer_lot, numbers, sizeof numbers, behind, 1), state->bytes);
        check(has(state, &fields) && beside(&state_lot, sizeof *state, behind, 0xc3), "the saving itself");

        for (int good = 0; good < 2; good++) {
            static uint8_t other[sizeof fields.hashes];
            memset(other, 0xa5, sizeof other);
            for (size_t k = 1; k < 4; k++) {
                mprotect(arrays[k]->first, arrays[k]->room, PROT_READ | PROT_WRITE);
                memset(arrays[k]->first, 0xc3, arrays[k]->room);
            }
            uint8_t *hashes = lay(&form_lot, other, sizeof fields.hashes, behind, 0);
            size_t *sizes = (size_t *)(void *)lay(&fields_lot, other, sizeof fields.sizes, answer_behind, 0);
            size_t *read = (size_t *)(void *)lay(&answer_lot, other, sizeof numbers, behind, 0);
            state->bytes[marks[4] + 1] = good ? 'L' : 'l';
            size_t number = muongrabi_restore(state->bytes, sizeof state->bytes, hashes, sizes, read);
            check(number == (good ? 0u : 20u), "the restoring itself");
            check(memcmp(hashes, good ? fields.hashes : other, sizeof fields.hashes) == 0, "its hashes");
            check(good ? memcmp(sizes, fields.sizes, sizeof fields.sizes) == 0 : memcmp(sizes, other, sizeof fields.sizes) == 0, "its sizes");
            check(good ? memcmp(read, numbers, sizeof numbers) == 0 : memcmp(read, other, sizeof numbers) == 0, "its numbers");
            check(beside(&form_lot, sizeof fields.hashes, behind, 0xc3) && beside(&fields_lot, sizeof fields.sizes, answer_behind, 0xc3) &&
                  beside(&answer_lot, sizeof numbers, behind, 0xc3), "what lies beside them");
        }
    }
}

int main(void)
{
    list_lot = new_lot(2);
    image_lot = new_lot(8);
    stash_lot = new_lot(3);
    work_lot = new_lot(4);
    result_lot = new_lot(2);
    patch_lot = new_lot(2);
    piece_lot = new_lot(3);
    cuts_lot = new_lot(1);
    hash_lot = new_lot(1);
    file_lot = new_lot(3);
    state_lot = new_lot(2);
    form_lot = new_lot(3);
    fields_lot = new_lot(2);
    answer_lot = new_lot(1);
    digests();
    size_t length = make_list();
    whole_runs(length);
    states_moved(length);
    beginnings(length);
    patches();
    finished_lines();
    nothing_lent();
    faults();
    states_in_place();
    every_stop();
    what_a_step_touches();
    saved_forms();
    calls_over_no_state();
    sparse_files();
    sparse_files_in_allocated_memory();
    null_pointers();
    refusal_texts();
    exports();
    printf("%d passed, %d failed\n", passed, failed);
    return failed != 0;
}
