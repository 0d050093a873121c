/*
 * What the header's inline functions hand on. The exports are defined here and note what reaches them, so it is linked without the archive.
 * Ends in one line `N passed, M failed`.
 */
#include <stdio.h>
#include <string.h>

#include "muongrabi.h"

#undef muongrabi_digest
#undef muongrabi_open
#undef muongrabi_call
#undef muongrabi_run
#undef muongrabi_save
#undef muongrabi_restore
#undef muongrabi_sparse_load

#define TABLE (20 * MUONGRABI_MOST_STASHES)

static const void *pointers[9];
static size_t lengths[9], saved[16], restored_as;
static int asked, came;   /* for the ABI, and with the state that it was lent */

static void note(int k, const void *pointer, size_t length)
{
    pointers[k] = pointer;
    lengths[k] = length;
}

/* The bytes of a state are all the same one. */
static int all_are(const uint8_t *state, int byte)
{
    return state[0] == byte && memcmp(state, state + 1, MUONGRABI_SAVED - 1) == 0;
}

/* A state all of one byte, and an answer whose numbers are all different; both are others for each function. */
static void answered(uint8_t *state, uint64_t *answer, size_t count, size_t first)
{
    note(8, state, MUONGRABI_SAVED);
    memset(state, (int)first, MUONGRABI_SAVED);
    for (size_t k = 0; k < count; k++) answer[k] = ((uint64_t)first << 32) + k;
}

size_t muongrabi_abi_6(void)
{
    asked++;
    return MUONGRABI_ABI;
}

void muongrabi_digest(const uint8_t *bytes, size_t bytes_length, uint8_t out[20])
{
    note(0, bytes, bytes_length);
    note(1, out, 20);
}

void muongrabi_open(const uint8_t *list, size_t list_length, size_t image_length, size_t stash_length, size_t work_length,
                    size_t result_length, size_t patch_length, uint8_t state[MUONGRABI_SAVED], uint64_t answer[3])
{
    note(0, list, list_length);
    note(1, NULL, image_length);
    note(2, NULL, stash_length);
    note(3, NULL, work_length);
    note(4, NULL, result_length);
    note(5, NULL, patch_length);
    answered(state, answer, 3, 50);
}

void muongrabi_call(const uint8_t *list, size_t list_length, uint8_t *image, size_t image_length,
                    uint8_t *stash, size_t stash_length, uint8_t *work, size_t work_length,
                    uint8_t *result, size_t result_length, const uint8_t *patch, size_t patch_length,
                    const uint8_t *piece, size_t piece_length, uint8_t state[MUONGRABI_SAVED], uint64_t answer[5])
{
    note(0, list, list_length);
    note(1, image, image_length);
    note(2, stash, stash_length);
    note(3, work, work_length);
    note(4, result, result_length);
    note(5, patch, patch_length);
    note(6, piece, piece_length);
    came = all_are(state, 0x5a);
    answered(state, answer, 5, 100);
}

void muongrabi_run(const uint8_t *list, size_t list_length, uint8_t *image, size_t image_length,
                   uint8_t *stash, size_t stash_length, uint8_t *work, size_t work_length,
                   uint8_t *result, size_t result_length, const uint8_t *patch, size_t patch_length,
                   const uint8_t *data, size_t data_length, const size_t *cuts, size_t cuts_length,
                   uint8_t state[MUONGRABI_SAVED], uint64_t answer[5])
{
    note(0, list, list_length);
    note(1, image, image_length);
    note(2, stash, stash_length);
    note(3, work, work_length);
    note(4, result, result_length);
    note(5, patch, patch_length);
    note(6, data, data_length);
    note(7, cuts, cuts_length);
    answered(state, answer, 5, 200);
}

void muongrabi_save(const uint8_t hashes[TABLE], const size_t sizes[MUONGRABI_MOST_STASHES], const size_t numbers[16], uint8_t out[MUONGRABI_SAVED])
{
    note(0, hashes, TABLE);
    note(1, sizes, MUONGRABI_MOST_STASHES);
    note(8, out, MUONGRABI_SAVED);
    memcpy(saved, numbers, sizeof saved);
    memset(out, 77, MUONGRABI_SAVED);
}

/* Gives the number that it is told to, and with 0 numbers that are all different. */
size_t muongrabi_restore(const uint8_t *bytes, size_t bytes_length, uint8_t hashes[TABLE], size_t sizes[MUONGRABI_MOST_STASHES], size_t numbers[16])
{
    note(0, bytes, bytes_length);
    note(1, hashes, TABLE);
    note(2, sizes, MUONGRABI_MOST_STASHES);
    if (restored_as != 0) return restored_as;
    memset(hashes, 0x66, TABLE);
    for (size_t k = 0; k < MUONGRABI_MOST_STASHES; k++) sizes[k] = 900 + k;
    for (size_t k = 0; k < 16; k++) numbers[k] = 700 + k;
    return 0;
}

uint32_t muongrabi_sparse_load(const uint8_t *file, size_t file_length, uint8_t *image, size_t image_length)
{
    note(0, file, file_length);
    note(1, image, image_length);
    return 36;
}

static int passed, failed;

static void check(int good, const char *what, int null)
{
    if (good) {
        passed++;
    } else {
        failed++;
        printf("failed: %s, null %d\n", what, null);
    }
}

/* Parameter k came as it was given, with length 10 + k; where it was null, as some pointer and no bytes. */
static int handed_on(int k, const void *given)
{
    return given ? pointers[k] == given && lengths[k] == (size_t)(10 + k) : pointers[k] != NULL && lengths[k] == 0;
}

/* The state was lent where it lies, and is what the export left. */
static int put_back(const muongrabi_state *state, int byte)
{
    return pointers[8] == state->bytes && all_are(state->bytes, byte);
}

/* All five numbers, each in its place. */
static int answer_is(const muongrabi_answer *answer, size_t first)
{
    first <<= 32;
    return answer->outcome == first && answer->number == first + 1 && answer->line == first + 2 && answer->byte == first + 3 && answer->taken == first + 4;
}

/* Fields whose tables have these values, and whose numbers are all different from there on, in the order of the saved form. */
static void make_fields(muongrabi_fields *fields, int byte, size_t sizes, size_t first)
{
    memset(fields, 0, sizeof *fields);
    memset(fields->hashes, byte, sizeof fields->hashes);
    for (size_t k = 0; k < MUONGRABI_MOST_STASHES; k++) fields->sizes[k] = sizes + k;
    fields->count = first;
    fields->line = first + 1;
    fields->at = first + 2;
    fields->into = first + 3;
    fields->total = first + 4;
    fields->ready = first + 5;
    fields->stretches = first + 6;
    fields->refusal.number = first + 7;
    fields->refusal.line = first + 8;
    fields->refusal.byte = first + 9;
    fields->lengths.list = first + 10;
    fields->lengths.image = first + 11;
    fields->lengths.stash = first + 12;
    fields->lengths.work = first + 13;
    fields->lengths.result = first + 14;
    fields->lengths.patch = first + 15;
}

int main(void)
{
    static uint8_t bytes[7];
    static const size_t numbers[1] = {0};
    static muongrabi_state state;
    static muongrabi_fields fields, before;
    /* null is the parameter that is null, -1 none. */
    for (int null = -1; null < 8; null++) {
        uint8_t *given[7];
        for (int k = 0; k < 7; k++) given[k] = k == null ? NULL : bytes + k;
        const size_t *cuts = null == 7 ? NULL : numbers;

        asked = came = 0;
        memset(&state, 0x5a, sizeof state);
        muongrabi_answer answer = muongrabi_call_lent(given[0], 10, given[1], 11, given[2], 12, given[3], 13,
                                                      given[4], 14, given[5], 15, given[6], 16, &state);
        int good = asked == 1 && came && put_back(&state, 100) && answer_is(&answer, 100);
        for (int k = 0; k < 7; k++) good &= handed_on(k, given[k]);
        check(good, "call", null);

        asked = 0;
        answer = muongrabi_run_lent(given[0], 10, given[1], 11, given[2], 12, given[3], 13,
                                    given[4], 14, given[5], 15, given[6], 16, cuts, 17, &state);
        good = asked == 1 && put_back(&state, 200) && answer_is(&answer, 200);
        for (int k = 0; k < 7; k++) good &= handed_on(k, given[k]);
        check(good && handed_on(7, cuts), "run", null);

        asked = 0;
        muongrabi_refusal refusal = muongrabi_open_lent(given[0], 10, 11, 12, 13, 14, 15, &state);
        size_t first = (size_t)50 << 32;
        good = asked == 1 && put_back(&state, 50) && handed_on(0, given[0]);
        good &= refusal.number == first && refusal.line == first + 1 && refusal.byte == first + 2;
        for (int k = 1; k < 6; k++) good &= lengths[k] == (size_t)(10 + k);
        check(good, "open", null);

        /* Neither pointer may be null: the tables go as they lie, and the fields stay. */
        asked = 0;
        make_fields(&fields, 0x3c, 800, 600);
        before = fields;
        muongrabi_save_lent(&fields, &state);
        good = asked == 1 && pointers[0] == fields.hashes && pointers[1] == fields.sizes && put_back(&state, 77);
        for (size_t k = 0; k < 16; k++) good &= saved[k] == 600 + k;
        check(good && memcmp(&fields, &before, sizeof before) == 0, "save", null);

        asked = 0;
        restored_as = 0;
        make_fields(&before, 0x66, 900, 700);
        good = muongrabi_restore_lent(given[0], 10, &fields) == 0 && asked == 1 && memcmp(&fields, &before, sizeof before) == 0;
        good &= pointers[1] == fields.hashes && pointers[2] == fields.sizes;
        check(good && handed_on(0, given[0]), "restore", null);

        /* Of an export that leaves its arrays the fields stay, every one. */
        asked = 0;
        restored_as = 20;
        make_fields(&fields, 0x3c, 800, 600);
        before = fields;
        good = muongrabi_restore_lent(given[0], 10, &fields) == 20 && asked == 1 && memcmp(&fields, &before, sizeof before) == 0;
        check(good && handed_on(0, given[0]), "restore with 20", null);

        asked = 0;
        check(muongrabi_sparse_load_lent(given[0], 10, given[1], 11) == 36 && asked == 1 && handed_on(0, given[0]) && handed_on(1, given[1]),
              "sparse load", null);

        uint8_t out[20];
        muongrabi_digest_lent(given[0], 10, out);
        check(handed_on(0, given[0]) && pointers[1] == out, "digest", null);
    }
    printf("%d passed, %d failed\n", passed, failed);
    return failed != 0;
}
