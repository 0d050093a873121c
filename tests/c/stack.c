/*
 * How much stack the library takes. Each function runs on a thread with a small stack that is painted first; below it lies a page that may not be
 * touched, so that a function which takes more ends the program. What was taken is printed, with what the header's inline functions take of it.
 * Ends in one line `N passed, M failed`.
 */
#define _GNU_SOURCE
#include <pthread.h>
#include <stdarg.h>
#include <stdio.h>
#include <stdlib.h>
#include <string.h>
#include <sys/mman.h>

#include "muongrabi.h"

#define BLOCK MUONGRABI_BLOCK
#define MOST MUONGRABI_MOST_STASHES
#define STACK ((size_t)128 << 10)   /* bytes of a thread's whole stack; on AArch64 the C library wants as many */
/* What the header says: of any function, and of a call. */
#define MOST_TAKEN ((size_t)52 << 10)
#define MOST_OF_CALL ((size_t)20 << 10)
#define PAINT 0xa7

static int passed, failed;

static void check(int good, const char *what)
{
    if (good) {
        passed++;
    } else {
        failed++;
        printf("failed: %s\n", what);
    }
}

/* As many stashes as may be, moved and patched together, and new data; one block each, all different. */
static char list[64 << 10];
static size_t list_length;
static uint8_t image[(MOST + 1) * BLOCK], stash[MOST * BLOCK], work[MOST * BLOCK], result[MOST * BLOCK], data[BLOCK];
static uint8_t patch[26 + MOST * BLOCK];

static void name_of(const uint8_t *bytes, size_t length, char out[41])
{
    uint8_t hash[20];
    muongrabi_digest(bytes, length, hash);
    for (int k = 0; k < 20; k++) sprintf(out + 2 * k, "%02x", hash[k]);
}

static void put(const char *format, ...)
{
    va_list values;
    va_start(values, format);
    list_length += (size_t)vsnprintf(list + list_length, sizeof list - list_length, format, values);
    va_end(values);
    if (list_length >= sizeof list) exit(2);
}

/* The source of both: each stash in its place. */
static void put_source(char names[][41])
{
    put(" %lu -", MOST);
    for (size_t k = 0; k < MOST; k++) put(" %s:2,%zu,%zu", names[k], k, k + 1);
    put("\n");
}

static void make_list(void)
{
    static char names[MOST][41], whole[41], after[41];
    for (size_t k = 0; k < sizeof image; k++) image[k] = (uint8_t)(k / BLOCK + k % 251);
    for (size_t k = 0; k < MOST; k++) name_of(image + k * BLOCK, BLOCK, names[k]);
    name_of(image, MOST * BLOCK, whole);
    /* One record, which adds one to each byte. */
    memcpy(patch, "CP", 2);
    for (int k = 0; k < 8; k++) patch[2 + k] = (uint8_t)((size_t)(MOST * BLOCK) >> 8 * k);
    memset(patch + 26, 1, MOST * BLOCK);
    for (size_t k = 0; k < MOST * BLOCK; k++) result[k] = (uint8_t)(image[k] + 1);
    name_of(result, MOST * BLOCK, after);

    put("3\n%lu\n%lu\n%lu\n", 2 * MOST + 1, MOST, MOST);
    for (size_t k = 0; k < MOST; k++) put("stash %s 2,%zu,%zu\n", names[k], k, k + 1);
    put("move %s 2,1,%lu", whole, MOST + 1);
    put_source(names);
    put("bsdiff 0 %zu %s %s 2,1,%lu", sizeof patch, whole, after, MOST + 1);
    put_source(names);
    put("new 2,0,1\nfree %s\n", names[0]);
}

static muongrabi_state state;
static muongrabi_fields fields;
static muongrabi_refusal refusal;
static muongrabi_answer answer;

static void open_list(void)
{
    refusal = muongrabi_open((const uint8_t *)list, list_length, sizeof image, sizeof stash, sizeof work, sizeof result, sizeof patch, &state);
}

/* Past every stop; the answer's taken is then the sum. */
static void call_list(void)
{
    size_t used = 0;
    do {
        answer = muongrabi_call((const uint8_t *)list, list_length, image, sizeof image, stash, sizeof stash, work, sizeof work,
                                result, sizeof result, patch, sizeof patch, data + used, sizeof data - used, &state);
        used += answer.taken;
    } while (answer.outcome == MUONGRABI_STOP);
    answer.taken = used;
}

static void run_list(void)
{
    static const size_t cuts[] = {0, 1, 4000};
    answer = muongrabi_run((const uint8_t *)list, list_length, image, sizeof image, stash, sizeof stash, work, sizeof work,
                           result, sizeof result, patch, sizeof patch, data, sizeof data, cuts, 3, &state);
}

static size_t restored;

static void restore_state(void)
{
    restored = muongrabi_restore(state.bytes, sizeof state.bytes, &fields);
}

static int finished(void)
{
    restore_state();
    return answer.outcome == MUONGRABI_DONE && answer.taken == sizeof data && restored == 0 && fields.count == MOST - 1;
}

static muongrabi_state again;

static void save_state(void)
{
    muongrabi_save(&fields, &again);
}

static void hash_bytes(void)
{
    uint8_t out[20];
    muongrabi_digest(data, sizeof data, out);
}

/* Three raw blocks. */
static void load_file(void)
{
    static uint8_t file[28 + 12 + 3 * BLOCK] = {0x3a, 0xff, 0x26, 0xed, 1, 0, 0, 0, 28, 0, 12, 0, 0, 0x10, 0, 0, 3, 0, 0, 0, 1, 0, 0, 0, 0, 0, 0, 0,
                                                0xc1, 0xca, 0, 0, 3, 0, 0, 0, 12, 0x30};
    static uint8_t loaded[3 * BLOCK];
    check(muongrabi_sparse_load(file, sizeof file, loaded, sizeof loaded) == 0, "a sparse file");
}

typedef struct {
    void (*job)(void);
    uint8_t *from;   /* where the thread's own function stands */
} task;

static void *start(void *given)
{
    task *of = given;
    of->from = __builtin_frame_address(0);
    of->job();
    return NULL;
}

/* The bytes of stack that the job took. */
static size_t taken(const char *name, void (*job)(void))
{
    uint8_t *base = mmap(NULL, BLOCK + STACK, PROT_NONE, MAP_PRIVATE | MAP_ANONYMOUS, -1, 0);
    if (base == MAP_FAILED || mprotect(base + BLOCK, STACK, PROT_READ | PROT_WRITE) != 0) exit(2);
    uint8_t *lowest = base + BLOCK;
    memset(lowest, PAINT, STACK);
    pthread_attr_t attributes;
    pthread_t thread;
    task of = {job, NULL};
    if (pthread_attr_init(&attributes) != 0 || pthread_attr_setstack(&attributes, lowest, STACK) != 0 ||
        pthread_create(&thread, &attributes, start, &of) != 0 || pthread_join(thread, NULL) != 0) exit(2);
    while (*lowest == PAINT) lowest++;
    size_t bytes = (size_t)(of.from - lowest);
    printf("%s: %zu bytes\n", name, bytes);
    pthread_attr_destroy(&attributes);
    munmap(base, BLOCK + STACK);
    return bytes;
}

int main(void)
{
    make_list();
    for (size_t k = 0; k < sizeof data; k++) data[k] = (uint8_t)k;
    check(taken("opening", open_list) <= MOST_TAKEN && refusal.number == 0, "an opening");
    check(taken("call", call_list) <= MOST_OF_CALL && finished(), "a call");
    for (size_t k = 0; k < sizeof image; k++) image[k] = (uint8_t)(k / BLOCK + k % 251);
    check(taken("run", run_list) <= MOST_TAKEN && finished(), "a run");
    check(taken("restoring", restore_state) <= MOST_TAKEN && restored == 0, "restoring a state");
    check(taken("saving", save_state) <= MOST_TAKEN && memcmp(&again, &state, sizeof state) == 0, "saving it again");
    check(taken("digest", hash_bytes) <= MOST_TAKEN, "a digest");
    check(taken("sparse file", load_file) <= MOST_TAKEN, "a sparse file's stack");
    printf("%d passed, %d failed\n", passed, failed);
    return failed != 0;
}
