/*
 * Applies an update, and finishes it after a power cut: apply LIST IMAGE NEW [PATCH]
 *
 * LIST is the transfer list, IMAGE the image that is updated in its place, a file, NEW the new data, all of it, read in pieces, so it may be larger
 * than memory, and PATCH the patch data, where the list has `bsdiff` lines. The stash, work and result areas are files beside the image, as large as
 * the list needs them, and IMAGE.saved has the bytes of the state, after opening and at every stop (docs/POWER-CUTS.md). Where that file is
 * found, the run goes on from there, with the new data from the byte on that it names. When the list is finished these files are removed. Where it is
 * refused, or the new data ends too soon, they stay, and the next run goes on; to begin anew with another image, remove IMAGE.saved first.
 * Prints `done T`, `more T` (T: bytes of new data taken in all) or `refused: ` and why; where a line is ill formed, then the line, and a mark under
 * the first byte that is wrong. Exit status: 0 done, 1 more or refused, 2 for a file that cannot be read or written, or that is no saved form.
 */
#define _POSIX_C_SOURCE 200809L
#include <errno.h>
#include <fcntl.h>
#include <libgen.h>
#include <stdio.h>
#include <stdlib.h>
#include <string.h>
#include <sys/mman.h>
#include <sys/stat.h>
#include <unistd.h>

#include "muongrabi.h"

static void fail(const char *name)
{
    perror(name);
    exit(2);
}

static int open_file(const char *name, int flags)
{
    int file = open(name, flags, 0644);
    if (file < 0) fail(name);
    return file;
}

/* As many bytes as there are, up to the length. */
static size_t read_bytes(int file, const char *name, uint8_t *bytes, size_t length)
{
    size_t used = 0;
    while (used < length) {
        ssize_t got = read(file, bytes + used, length - used);
        if (got < 0) fail(name);
        if (got == 0) break;
        used += (size_t)got;
    }
    return used;
}

/* The whole file. */
static uint8_t *read_file(const char *name, size_t *length)
{
    int file = open_file(name, O_RDONLY);
    size_t room = 1 << 16;
    uint8_t *bytes = malloc(room);
    if (!bytes) fail(name);
    *length = 0;
    for (;;) {
        *length += read_bytes(file, name, bytes + *length, room - *length);
        if (*length < room) break;
        room *= 2;
        bytes = realloc(bytes, room);
        if (!bytes) fail(name);
    }
    close(file);
    return bytes;
}

/* Past the bytes that were taken before; of a pipe they come again. */
static void skip(int file, const char *name, size_t bytes)
{
    static uint8_t dropped[1 << 16];
    if (lseek(file, (off_t)bytes, SEEK_SET) >= 0) return;
    if (errno != ESPIPE) fail(name);
    while (bytes != 0) {
        size_t got = read_bytes(file, name, dropped, bytes < sizeof dropped ? bytes : sizeof dropped);
        if (got == 0) return;
        bytes -= got;
    }
}

static char *beside(const char *image, const char *ending)
{
    char *name = malloc(strlen(image) + strlen(ending) + 1);
    if (!name) fail(image);
    return strcat(strcpy(name, image), ending);
}

/* --- bytes in storage: the image and the areas are files, mapped, so that what a call writes is what storage gets */

typedef struct stored {
    char *name;
    uint8_t *bytes;   /* null where there are none */
    size_t length;
} stored;

static stored map(char *name, int file, size_t length)
{
    stored s = {name, NULL, length};
    if (length != 0) {
        s.bytes = mmap(NULL, length, PROT_READ | PROT_WRITE, MAP_SHARED, file, 0);
        if (s.bytes == MAP_FAILED) fail(name);
    }
    close(file);
    return s;
}

static stored map_image(const char *image)
{
    char *name = beside(image, "");
    int file = open_file(name, O_RDWR);
    struct stat is;
    if (fstat(file, &is) != 0) fail(name);
    return map(name, file, (size_t)is.st_size);
}

/* An area of that length: the one that a run left, or a new one. Of a new one storage has the length and the room before a state speaks of it. */
static stored map_area(const char *image, const char *ending, size_t length, int found)
{
    char *name = beside(image, ending);
    int file = open_file(name, found ? O_RDWR : O_RDWR | O_CREAT | O_TRUNC);
    struct stat is;
    if (!found) {
        errno = length != 0 ? posix_fallocate(file, 0, (off_t)length) : 0;
        if (errno != 0 || fsync(file) != 0) fail(name);
    }
    if (fstat(file, &is) != 0) fail(name);
    if ((size_t)is.st_size != length) {
        fprintf(stderr, "%s: not the area that the saved state was made with\n", name);
        exit(2);
    }
    return map(name, file, length);
}

static void sync_bytes(const stored *s)
{
    if (s->bytes && msync(s->bytes, s->length, MS_SYNC) != 0) fail(s->name);
}

/* --- the state in storage, replaced whole or not at all */

static void sync_folder(const char *name)
{
    char *copy = beside(name, "");
    int folder = open_file(dirname(copy), O_RDONLY);
    if (fsync(folder) != 0) fail(name);
    close(folder);
    free(copy);
}

static void save(const char *name, const muongrabi_state *state)
{
    char *fresh = beside(name, ".new");
    int file = open_file(fresh, O_WRONLY | O_CREAT | O_TRUNC);
    size_t done = 0;
    while (done < sizeof state->bytes) {
        ssize_t put = write(file, state->bytes + done, sizeof state->bytes - done);
        if (put < 0) fail(fresh);
        done += (size_t)put;
    }
    if (fsync(file) != 0 || close(file) != 0 || rename(fresh, name) != 0) fail(fresh);
    sync_folder(name);
    free(fresh);
}

/* Whether there is one, and what its fields are; bytes that are no state's end the program. */
static int restore(const char *name, muongrabi_state *state, muongrabi_fields *fields)
{
    if (access(name, F_OK) != 0 && errno == ENOENT) return 0;
    size_t length;
    uint8_t *bytes = read_file(name, &length);
    size_t number = muongrabi_restore(bytes, length, fields);
    if (number == 0) memcpy(state->bytes, bytes, sizeof state->bytes);
    free(bytes);
    if (number != 0) {
        fprintf(stderr, "%s: %s (refusal %zu)\n", name, muongrabi_refusal_text(number), number);
        exit(2);
    }
    return 1;
}

/* --- refusals */

#define SHOWN 64   /* bytes of a line that are shown at most */

/*
 * Shows the line that has this byte, with a mark under it. The byte may be the line's LF or the list's end: the mark then stands behind the line.
 * One past the list, which a state that was kept elsewhere may hold, is in no line.
 */
static void show(const uint8_t *list, size_t length, size_t byte)
{
    if (byte > length) return;
    size_t start = byte, end = byte;
    while (start > 0 && list[start - 1] != '\n') start--;
    while (end < length && list[end] != '\n') end++;
    /* Of a long line the part around the byte. */
    size_t from = start;
    if (end - start > SHOWN) {
        if (byte - start > SHOWN / 2) from = byte - SHOWN / 2;
        if (from > end - SHOWN) from = end - SHOWN;
    }
    size_t to = end - from > SHOWN ? from + SHOWN : end;
    printf("    %s", from > start ? ".." : "");
    /* A terminal would obey some bytes, and take others for part of a character. */
    for (size_t k = from; k < to; k++) putchar(list[k] >= ' ' && list[k] <= '~' ? list[k] : '?');
    printf("%s\n    %*s^\n", to < end ? ".." : "", (int)(byte - from + (from > start ? 2 : 0)), "");
}

static int refused(const uint8_t *list, size_t length, muongrabi_refusal refusal)
{
    int ill_formed = refusal.number == MUONGRABI_REFUSAL_HEADER_FORM || refusal.number == MUONGRABI_REFUSAL_LINE_FORM;
    printf("refused: ");
    if (ill_formed) printf("line %zu, byte %zu of the list: ", refusal.line, refusal.byte);
    else if (refusal.line != 0) printf("line %zu: ", refusal.line);
    printf("%s (refusal %zu)\n", muongrabi_refusal_text(refusal.number), refusal.number);
    if (ill_formed) show(list, length, refusal.byte);
    return 1;
}

/* --- the areas that a list needs */

static muongrabi_refusal opened(const uint8_t *list, const muongrabi_lengths *lengths, muongrabi_state *state)
{
    return muongrabi_open(list, lengths->list, lengths->image, lengths->stash, lengths->work, lengths->result, lengths->patch, state);
}

/* Makes one of the lengths the least with which the list still opens. An opening takes lengths alone, so nothing is lent yet. */
static void fit(const uint8_t *list, muongrabi_lengths *lengths, size_t *area)
{
    static muongrabi_state tried;
    size_t low = 0, high = *area / MUONGRABI_BLOCK;
    while (low < high) {
        size_t middle = low + (high - low) / 2;
        *area = middle * MUONGRABI_BLOCK;
        if (opened(list, lengths, &tried).number == 0) high = middle;
        else low = middle + 1;
    }
    *area = high * MUONGRABI_BLOCK;
}

/* What the program works on, to its end. */
static uint8_t *list, *patch;
static stored image, stash, work, result;
static char *saved;
static muongrabi_state state;
static size_t total;   /* bytes of new data taken in all */

/* Storage gets the bytes before the state that speaks of them, and the state before the next call writes. */
static void keep(void)
{
    sync_bytes(&image);
    sync_bytes(&stash);
    sync_bytes(&work);
    sync_bytes(&result);
    save(saved, &state);
}

int main(int argc, char **argv)
{
    if (argc != 4 && argc != 5) {
        fprintf(stderr, "usage: apply LIST IMAGE NEW [PATCH]\n");
        return 2;
    }
    const char *image_name = argv[2], *data_name = argv[3];
    /* The largest areas at first, so that no list is refused for want of room. */
    muongrabi_lengths lengths = {.stash = MUONGRABI_MOST_AREA * MUONGRABI_BLOCK, .work = MUONGRABI_MOST_AREA * MUONGRABI_BLOCK,
                                 .result = MUONGRABI_MOST_RESULT * MUONGRABI_BLOCK};
    list = read_file(argv[1], &lengths.list);
    if (argc == 5) patch = read_file(argv[4], &lengths.patch);
    int data = open_file(data_name, O_RDONLY);
    image = map_image(image_name);
    lengths.image = image.length;

    saved = beside(image_name, ".saved");
    static muongrabi_fields fields;
    int found = restore(saved, &state, &fields);
    if (found) {
        lengths.stash = fields.lengths.stash;
        lengths.work = fields.lengths.work;
        lengths.result = fields.lengths.result;
        total = fields.total;
    } else {
        muongrabi_refusal refusal = opened(list, &lengths, &state);
        if (refusal.number != 0) return refused(list, lengths.list, refusal);
        fit(list, &lengths, &lengths.stash);
        fit(list, &lengths, &lengths.work);
        fit(list, &lengths, &lengths.result);
        opened(list, &lengths, &state);
    }
    stash = map_area(image_name, ".stash", lengths.stash, found);
    work = map_area(image_name, ".work", lengths.work, found);
    result = map_area(image_name, ".result", lengths.result, found);
    if (!found) {
        sync_folder(image_name);
        keep();
    }
    skip(data, data_name, total);

    static uint8_t piece[1 << 16];
    size_t got;
    muongrabi_answer answer;
    do {
        size_t used = 0;
        got = read_bytes(data, data_name, piece, sizeof piece);
        for (;;) {
            answer = muongrabi_call(list, lengths.list, image.bytes, image.length, stash.bytes, stash.length, work.bytes, work.length,
                                    result.bytes, result.length, patch, lengths.patch, piece + used, got - used, &state);
            used += answer.taken;
            total += answer.taken;
            if (answer.outcome != MUONGRABI_STOP) break;
            keep();
        }
    } while (answer.outcome == MUONGRABI_MORE && got == sizeof piece);

    sync_bytes(&image);
    if (answer.outcome == MUONGRABI_REFUSED) {
        int status = refused(list, lengths.list, (muongrabi_refusal){answer.number, answer.line, answer.byte});
        if (answer.number == MUONGRABI_REFUSAL_STATE_IMPOSSIBLE) printf("    %s is of another update\n", saved);
        return status;
    }
    /* The caller has the answer before the saved state goes: without it the next run would begin anew, over an image that is finished. */
    if (printf("%s %zu\n", answer.outcome == MUONGRABI_DONE ? "done" : "more", total) < 0 || fflush(stdout) != 0) fail("standard output");
    if (answer.outcome == MUONGRABI_MORE) return 1;
    /* The areas go last, when nothing in storage speaks of them. */
    if (unlink(saved) != 0) fail(saved);
    sync_folder(image_name);
    if (unlink(stash.name) != 0 || unlink(work.name) != 0 || unlink(result.name) != 0) fail(image_name);
    return 0;
}
