/*
 * muongrabi: runs an Android transfer list of version 3 over a lent image while new data arrives in pieces, and loads an Android sparse file
 * into a lent image.
 *
 * For C99 and C++98, and later ones. Link with libmuongrabi.a: `pkg-config --cflags --libs muongrabi` after `./install PREFIX`, or the archive as it
 * is built. `./build library` makes the one for x86-64 Linux, target/staticlib/libmuongrabi.a: for this machine the Rattle toolchain stands behind the
 * code that it compiles. `./build aarch64` makes the one for AArch64 Linux and Android, target/staticlib/aarch64/libmuongrabi.a: the same proved crates
 * and the same exports, compiled for Android, which the toolchain does not promise; there the code is tested, by tests/arm64. An archive wants memcpy,
 * memmove and memset of the C library, at most 52 KiB of stack, a call 20 KiB, and nothing else. Nothing is allocated, no file is opened and no state
 * is kept inside: everything a function works on is lent by the caller, and what must be remembered between calls is the caller's state.
 *
 *     muongrabi_state state;
 *     muongrabi_refusal refusal = muongrabi_open(list, list_length, image_length, stash_length, work_length, result_length, patch_length, &state);
 *     if (refusal.number != 0) say muongrabi_refusal_text(refusal.number), and stop;
 *     while (there is new data, or once with none) {
 *         muongrabi_answer answer;
 *         do {
 *             answer = muongrabi_call(list, list_length, image, image_length, stash, stash_length, work, work_length,
 *                                     result, result_length, patch, patch_length, piece, piece_length, &state);
 *             piece += answer.taken, piece_length -= answer.taken;
 *             if (answer.outcome == MUONGRABI_STOP) sync image and areas, then store state.bytes, if the update is to survive a power cut;
 *         } while (answer.outcome == MUONGRABI_STOP);
 *         if (answer.outcome != MUONGRABI_MORE) break;
 *     }
 *
 * To finish after a power cut: keep image and areas in storage, and state.bytes beside them, replaced whole or not at all, after opening and at every
 * stop; storage has image and areas before the state that speaks of them, and the state before the next call. To go on, read the stored bytes:
 *
 *     muongrabi_fields fields;
 *     if (muongrabi_restore(bytes, bytes_length, &fields) != 0) these are not the bytes of a state (20): say so, and stop;
 *     memcpy(state.bytes, bytes, sizeof state.bytes);
 *     call as above, with the new data from byte fields.total on;
 *
 * docs/POWER-CUTS.md has it on one page.
 *
 * A list without `bsdiff` needs no result area and no patch data: lend null and 0.
 *
 * A first image that comes as a sparse file: muongrabi_sparse_load(file, file_length, image, image_length), which gives 0 or a refusal number.
 *
 * For all functions: a pointer with length n names n readable bytes, writable ones for image, stash, work and result; cuts names n readable
 * numbers; state names a state, fields the fields of one, and out as many writable bytes as are written there, and these three are not null. A null
 * pointer elsewhere names no bytes and no numbers, whatever n is given with it. What is written (image, stash, work, result, state, fields, out)
 * overlaps nothing else that the same call is lent. Every value of every byte and number is allowed and gets an answer.
 */
#ifndef MUONGRABI_H
#define MUONGRABI_H

#if !defined(__linux__) || !defined(__LP64__) || !(defined(__x86_64__) || (defined(__aarch64__) && defined(__AARCH64EL__)))
#error "muongrabi: the archives are for x86-64 and AArch64 Linux, 64-bit and little-endian"
#endif

#include <stddef.h>
#include <stdint.h>

#ifdef __cplusplus
extern "C" {
#endif

#define MUONGRABI_VERSION "0.10.0"
#define MUONGRABI_ABI 6   /* another number whenever what an archive exports changes: the parameters of a function, or what an array among them holds */

/* Limits, 64 bits wide, so that blocks times bytes do not wrap. */
#define MUONGRABI_BLOCK 4096ul          /* bytes of a block */
#define MUONGRABI_MOST_IMAGE 1048576ul  /* blocks of the image */
#define MUONGRABI_MOST_AREA 32768ul     /* blocks of the stash area, and of the work area */
#define MUONGRABI_MOST_RESULT 4096ul    /* blocks of the result area */
#define MUONGRABI_MOST_LIST 4194304ul   /* bytes of the list */
#define MUONGRABI_MOST_STASHES 256ul    /* stashes held at once */

/* Outcomes of a call. */
#define MUONGRABI_DONE 0u      /* the list is finished */
#define MUONGRABI_MORE 1u      /* every byte of the piece is taken, and the next byte of new data is needed */
#define MUONGRABI_REFUSED 2u   /* see the answer's number, line and byte */
#define MUONGRABI_STOP 3u      /* stopped for saving: call on with the bytes of the piece that were not taken, and more behind them if there are */

#define MUONGRABI_SAVED 7306ul /* bytes of a state: its saved form (docs/SAVED-FORM.md) */

/*
 * Refusal numbers. The line given with one is that line of the list, counted from 1, where nothing else is said.
 *
 * With 3 and 6 comes a byte of the list, counted from 0: the first one at which no good line could go on. What could still have followed
 * decides, so that it is not always where the mistake was made: an odd count is wrong at the comma behind it, since a digit more could have made
 * it even, and the empty range of `2,8,8` behind its end, which could have become 80. It may be the line's LF; where the list ends too soon, or a
 * header line is absent, it is the list's length. Good here is every line that none of 3, 6 and 7 would be given for. With all other numbers the
 * byte is 0, which with 3 is the list's first.
 *
 * An opening gives 1 to 15 and 18, and looks at no block and at no patch. A call gives 6 to 14 and 16 to 20, and repeats the refusal that
 * its state holds. On the list that was opened, with the state as each call left it and areas and patch data of the same lengths, it gives 16
 * and 19 only. Restoring a state gives 20. Loading a sparse file gives 30 to 36, which nothing else gives. 20 and 30 to 36 have no line.
 */
enum muongrabi_refusal_number {
    MUONGRABI_REFUSAL_AREA_SIZE = 1,         /* image, stash, work or result area not whole blocks, or over its limit; line 0 */
    MUONGRABI_REFUSAL_LIST_LENGTH = 2,       /* list too long; line 0 */
    MUONGRABI_REFUSAL_HEADER_FORM = 3,       /* header line absent, ill formed or without LF */
    MUONGRABI_REFUSAL_OTHER_VERSION = 4,     /* version not 3; line 1 */
    MUONGRABI_REFUSAL_HEADER_LIMIT = 5,      /* line 3 over 256; else line 4 over the stash area */
    MUONGRABI_REFUSAL_LINE_FORM = 6,         /* command line ill formed, as by a range whose end is not above its start, or its word unknown */
    MUONGRABI_REFUSAL_UNSUPPORTED = 7,       /* first word imgdiff, whatever follows */
    MUONGRABI_REFUSAL_PAST_IMAGE = 8,        /* a range of target or image source ends past the image */
    MUONGRABI_REFUSAL_PAST_AREA = 9,         /* N, or an image source, larger than the work area; bsdiff's target than the result area */
    MUONGRABI_REFUSAL_NOT_HELD = 10,         /* a stash named in move, bsdiff or free is not held */
    MUONGRABI_REFUSAL_SIZES_DIFFER = 11,     /* sizes of target, source and places do not agree; bsdiff's target may have any */
    MUONGRABI_REFUSAL_MISPLACED = 12,        /* a place at N or above, or taken twice */
    MUONGRABI_REFUSAL_HELD_ALREADY = 13,     /* the hash to be stashed is held already */
    MUONGRABI_REFUSAL_NO_ROOM = 14,          /* holding it would pass line 3 or line 4 */
    MUONGRABI_REFUSAL_TOTAL_DIFFERS = 15,    /* all new, zero, move and bsdiff targets together differ from line 2; line 2 */
    MUONGRABI_REFUSAL_HASH_DIFFERS = 16,     /* in a run: the SHA-1 of a source that is read, or of a patch's result, is not the one in the list */
    MUONGRABI_REFUSAL_STATE_IMPOSSIBLE = 17, /* in a call: state impossible, or the length of list, image, area or patch data changed; line 0 */
    MUONGRABI_REFUSAL_PAST_PATCH = 18,       /* bsdiff's offset and length pass the end of the patch data */
    MUONGRABI_REFUSAL_PATCH_MALFORMED = 19,  /* in a run: a patch that is read is malformed, or its result is not as long as the target */
    MUONGRABI_REFUSAL_NO_SAVED_FORM = 20,    /* bytes that are no state's saved form, in muongrabi_restore and muongrabi_call; line 0 */

    MUONGRABI_REFUSAL_SPARSE_HEADER = 30,     /* sparse file's header cut short, or its mark or major version another */
    MUONGRABI_REFUSAL_SPARSE_SIZES = 31,      /* its header sizes not 28 and 12, or its block size not 4096 */
    MUONGRABI_REFUSAL_SPARSE_IMAGE = 32,      /* image not the blocks that the header says, or those over the limit */
    MUONGRABI_REFUSAL_SPARSE_CHUNK = 33,      /* chunk cut short, of unknown type, of no blocks, or with a wrong total of bytes */
    MUONGRABI_REFUSAL_SPARSE_PAST_IMAGE = 34, /* chunk ends past the image */
    MUONGRABI_REFUSAL_SPARSE_CHECKSUM = 35,   /* chunk of type 0xCAC4, a checksum */
    MUONGRABI_REFUSAL_SPARSE_END = 36         /* blocks missing after the last chunk, or bytes left over */
};

/*
 * A state is impossible when the areas and the list's header would now give 1 to 5; when `at` of its muongrabi_fields is past the list's end, before the
 * first command line or not at a line's start (the end after an LF is one), or `line` is not that line's number; when it holds over 256
 * stashes, one hash twice, a stash of no blocks, or more blocks than line 4 or the stash area; when `into` is not 0 and the line is no good `new`
 * (6, 8) or has no more bytes than that; when `ready` is not 0 and the line is not a `move`, `stash` or `bsdiff` free of 6 to 14 and 18; or when
 * `stretches` is not 0 and the line is not a `free` of a stash that is held, with more stretches to move than that.
 */

/* What a refusal's number means, in words for people. */
static inline const char *muongrabi_refusal_text(size_t number)
{
    static const char *const texts[] = {
        "nothing is refused",
        "the image, stash, work or result area is not whole blocks of 4096 bytes, or is over its limit",
        "the list is longer than 4194304 bytes",
        "a header line is missing, is no number from 0 to 4294967295 in plain digits, or has no line feed",
        "the list's version is not 3",
        "the list asks for more than 256 stashes, or for more blocks than the stash area has",
        "the line is not a command: its word is unknown, or its form is wrong",
        "the command imgdiff is not supported",
        "a range of the target or source ends past the image",
        "the source is larger than the work area, or the target than the result area",
        "the line names a stash that is not held",
        "the sizes of target, source and places do not agree",
        "a place lies past the end of the source, or is taken twice",
        "a stash of this hash is held already",
        "the stash would pass the number of stashes (line 3) or of blocks (line 4)",
        "the targets of all new, zero, move and bsdiff lines together do not have as many blocks as line 2 says",
        "the source, or what a patch makes of it, does not have the hash that the list gives",
        "the state does not fit the list, the areas and the patch data of this call",
        "the line's patch ends past the patch data",
        "the patch is malformed, or what it makes is not as long as the target",
        "the bytes are not the saved form of a state",
    };
    static const char *const texts_from_30[] = {
        "the file is no sparse file of major version 1: its header is cut short, or the mark or the version in it is another",
        "the sparse file's header sizes are not 28 and 12, or its block size is not 4096",
        "the image does not have as many blocks as the sparse file says, or the file says more than 1048576 of them",
        "a chunk of the sparse file is cut short, of an unknown type, of no blocks, or says another length than it must have",
        "a chunk of the sparse file ends past the image",
        "the sparse file has a checksum chunk (0xCAC4), which is not supported",
        "the sparse file's chunks end before the image does, or there are bytes after the last of them",
    };
    if (number < sizeof texts / sizeof *texts) return texts[number];
    if (number >= 30 && number - 30 < sizeof texts_from_30 / sizeof *texts_from_30) return texts_from_30[number - 30];
    return "a number that no rule gives";
}

/* A refusal; number 0 is none. */
typedef struct muongrabi_refusal {
    size_t number;
    size_t line;
    size_t byte;   /* of the list, with 3 and 6; else 0 */
} muongrabi_refusal;

/* The lengths at opening, in bytes. */
typedef struct muongrabi_lengths {
    size_t list;
    size_t image;
    size_t stash;
    size_t work;
    size_t result;
    size_t patch;
} muongrabi_lengths;

/*
 * Where a run stands, as the bytes of its saved form (docs/SAVED-FORM.md), the same on every machine: copy them, compare them, store them as they
 * are. A call reads them and changes them in place; muongrabi_restore says what is in them.
 */
typedef struct muongrabi_state {
    uint8_t bytes[MUONGRABI_SAVED];
} muongrabi_state;

/*
 * What is in a state. The stashes lie back to back from the front of the stash area, oldest first; stash k (k < count) has its hash in
 * hashes[20 * k .. 20 * k + 20] and its blocks in sizes[k].
 */
typedef struct muongrabi_fields {
    uint8_t hashes[20 * MUONGRABI_MOST_STASHES];
    size_t sizes[MUONGRABI_MOST_STASHES];
    size_t count;                /* stashes held */
    size_t line;                 /* the current line's number */
    size_t at;                   /* where it starts in the list, in bytes from 0 */
    size_t into;                 /* bytes written so far of a `new` */
    size_t total;                /* bytes taken since the opening, modulo 2^64: where the new data goes on */
    size_t ready;                /* not 0: the work area, for a `bsdiff` the result area, is filled and is written by the next call */
    size_t stretches;            /* stretches of the younger stashes that a `free` has moved down */
    muongrabi_refusal refusal;   /* what every later call repeats as it is, if its number is not 0 */
    muongrabi_lengths lengths;
} muongrabi_fields;

/* What a call answers. */
typedef struct muongrabi_answer {
    size_t outcome;   /* MUONGRABI_DONE, MUONGRABI_MORE, MUONGRABI_REFUSED or MUONGRABI_STOP */
    size_t number;    /* of the refusal, else 0 */
    size_t line;      /* of the refusal, else 0 */
    size_t byte;      /* of the list, with 3 and 6, else 0; where a held refusal is repeated, whatever it holds */
    size_t taken;     /* bytes of the piece that were used */
} muongrabi_answer;

/* What the proved code counts in is 64 bits wide, and a state is its bytes and nothing else. */
#if defined(__cplusplus) && __cplusplus >= 201103L
#define MUONGRABI_HOLDS(name, holds) static_assert(holds, #name)
#elif !defined(__cplusplus) && __STDC_VERSION__ >= 201112L
#define MUONGRABI_HOLDS(name, holds) _Static_assert(holds, #name)
#else
#define MUONGRABI_HOLDS(name, holds) typedef char muongrabi_holds_##name[(holds) ? 1 : -1]
#endif
MUONGRABI_HOLDS(number, sizeof(size_t) == 8);
MUONGRABI_HOLDS(state, sizeof(muongrabi_state) == MUONGRABI_SAVED);
#undef MUONGRABI_HOLDS

/*
 * What an archive exports: numbers, pointers with lengths, and pointers to arrays of these lengths alone, so that one declaration is right on every
 * machine. Call it by the functions below, which have the same names: the exports want pointers that are not null even where they read nothing
 * through them, and answer in arrays.
 */

/* MUONGRABI_ABI as the archive has it. The name has the number too: what was compiled with a header of another ABI does not link. */
size_t muongrabi_abi_6(void);

void muongrabi_digest(const uint8_t *bytes, size_t bytes_length, uint8_t out[20]);

/* The answer is the refusal's number, line and byte. The state is only written. */
void muongrabi_open(const uint8_t *list, size_t list_length, size_t image_length, size_t stash_length, size_t work_length,
                    size_t result_length, size_t patch_length, uint8_t state[MUONGRABI_SAVED], uint64_t answer[3]);

/* The answer is outcome, number, line, byte and taken. */
void muongrabi_call(const uint8_t *list, size_t list_length,
                    uint8_t *image, size_t image_length,
                    uint8_t *stash, size_t stash_length,
                    uint8_t *work, size_t work_length,
                    uint8_t *result, size_t result_length,
                    const uint8_t *patch, size_t patch_length,
                    const uint8_t *piece, size_t piece_length,
                    uint8_t state[MUONGRABI_SAVED], uint64_t answer[5]);

/* The same answer. The state is only written. */
void muongrabi_run(const uint8_t *list, size_t list_length,
                   uint8_t *image, size_t image_length,
                   uint8_t *stash, size_t stash_length,
                   uint8_t *work, size_t work_length,
                   uint8_t *result, size_t result_length,
                   const uint8_t *patch, size_t patch_length,
                   const uint8_t *data, size_t data_length,
                   const size_t *cuts, size_t cuts_length,
                   uint8_t state[MUONGRABI_SAVED], uint64_t answer[5]);

/* The numbers are a state's fields behind its tables, in their order; those of refusal and lengths are three and six of them. */
void muongrabi_save(const uint8_t hashes[20 * MUONGRABI_MOST_STASHES], const size_t sizes[MUONGRABI_MOST_STASHES], const size_t numbers[16],
                    uint8_t out[MUONGRABI_SAVED]);

/* With 20 the arrays are as they came. */
size_t muongrabi_restore(const uint8_t *bytes, size_t bytes_length, uint8_t hashes[20 * MUONGRABI_MOST_STASHES],
                         size_t sizes[MUONGRABI_MOST_STASHES], size_t numbers[16]);

uint32_t muongrabi_sparse_load(const uint8_t *file, size_t file_length, uint8_t *image, size_t image_length);

/* What lies between: no bytes for null, and answers as structs. */

static inline const uint8_t *muongrabi_lent_bytes(const uint8_t *bytes)
{
    static const uint8_t none = 0;
    return bytes ? bytes : &none;
}

static inline uint8_t *muongrabi_lent_area(uint8_t *area)
{
    static uint8_t none;
    return area ? area : &none;
}

static inline const size_t *muongrabi_lent_numbers(const size_t *numbers)
{
    static const size_t none = 0;
    return numbers ? numbers : &none;
}

static inline size_t muongrabi_lent_length(const void *lent, size_t length)
{
    return lent ? length : 0;
}

static inline muongrabi_answer muongrabi_answered(const uint64_t numbers[5])
{
    muongrabi_answer answer;
    answer.outcome = numbers[0];
    answer.number = numbers[1];
    answer.line = numbers[2];
    answer.byte = numbers[3];
    answer.taken = numbers[4];
    return answer;
}

/*
 * The functions to call. Each is called by its name without `_lent`, which stands for it from the end of this header on: muongrabi_digest,
 * muongrabi_open, muongrabi_call, muongrabi_run, muongrabi_save, muongrabi_restore and muongrabi_sparse_load. All but the digest's name
 * muongrabi_abi_6 too.
 */

/* Writes the SHA-1 digest of the bytes to out. */
static inline void muongrabi_digest_lent(const uint8_t *bytes, size_t bytes_length, uint8_t out[20])
{
    muongrabi_digest(muongrabi_lent_bytes(bytes), muongrabi_lent_length(bytes, bytes_length), out);
}

/*
 * Checks the whole list for areas and patch data of these lengths in bytes. Nothing but the list is read, and nothing but the state is written, which
 * must not be null; what it held is not looked at. Number 0: the list is accepted, and the state stands at its first command. Otherwise the state
 * holds the refusal that is given, and all its other fields are 0.
 */
static inline muongrabi_refusal muongrabi_open_lent(const uint8_t *list, size_t list_length,
                                                    size_t image_length, size_t stash_length, size_t work_length,
                                                    size_t result_length, size_t patch_length,
                                                    muongrabi_state *state)
{
    muongrabi_refusal refusal;
    uint64_t answer[3];
    (void)muongrabi_abi_6();
    muongrabi_open(muongrabi_lent_bytes(list), muongrabi_lent_length(list, list_length),
                   image_length, stash_length, work_length, result_length, patch_length, state->bytes, answer);
    refusal.number = answer[0];
    refusal.line = answer[1];
    refusal.byte = answer[2];
    return refusal;
}

/*
 * Runs the list from where the state stands until it needs a byte that the piece does not have, the list is finished, a line is refused, or
 * the run stops for saving. The state, which must not be null, is changed where it lies, and is then that of the next call. Where its bytes are no
 * state's saved form, the answer is 20, whatever else is lent. A refusal other than 17 and 20 is held in the state, and every later call repeats it.
 * With 17 and with 20 the state stays as it was, and nothing is taken or changed. A refused line changes nothing itself, with two exceptions: where a
 * hash differs (16) or a patch is malformed (19) the work area has the source, and where it is the hash of a patch's result, the result area has the
 * result. Nothing rests on what the opening found: state and lengths are looked at (20, 17), and each line is read and checked again (6 to 14, 18)
 * before it runs, so that a line altered since then is refused where it stands. Line 2 is the opening's alone (15).
 *
 * A line that is finished is passed over. Of a `move` or `bsdiff` the target's blocks are hashed first, as they stand in the image and in the order
 * in which the line names them. Where that is the move's hash, or the hash of the bsdiff's result, no source and no patch is read, image, stash,
 * work and result area stay as they are, and the state goes to the next line. The line is checked before that as any other (6 to 12, 18). All other
 * commands run whenever they are met.
 *
 * A run stops between filling the work area (of a `bsdiff` the result area) and writing from it, and after every `move`, `stash` and `bsdiff`, passed
 * over or not. A `free` moves the younger stashes down in stretches as long as the stash that goes, the last perhaps shorter, and stops after each;
 * where no stash is younger it does not stop. A stop may come with bytes of the piece not taken: the next piece begins with them. An empty
 * piece is enough to go on. What is ready is written as it is, whatever the target holds: neither target nor source is read again.
 *
 * A list that is run again from its top over an image that it has updated passes over the lines that are finished. In general that is still not
 * safe: a later line may have changed a block that an earlier one needs, and what a `stash` names may be gone. After a dropped connection
 * go on from the state of the last call, and after a power cut from the state that was stored at the last stop.
 *
 * A `bsdiff` that is not finished puts its source together in the work area, and what the patch makes of it in the result area; only where both
 * have their hashes is the result written to the image. A patch is bsdiff's control triples and bytes unpacked, not a file that bsdiff wrote:
 * records to its end, each the two bytes 0x43 0x50; add length, extra length and seek, eight bytes each as bsdiff has them (lowest first, the top
 * bit of the last one the sign); the bytes to add to the source's; the extra bytes.
 */
static inline muongrabi_answer muongrabi_call_lent(const uint8_t *list, size_t list_length,
                                                   uint8_t *image, size_t image_length,
                                                   uint8_t *stash, size_t stash_length,
                                                   uint8_t *work, size_t work_length,
                                                   uint8_t *result, size_t result_length,
                                                   const uint8_t *patch, size_t patch_length,
                                                   const uint8_t *piece, size_t piece_length,
                                                   muongrabi_state *state)
{
    uint64_t answer[5];
    (void)muongrabi_abi_6();
    muongrabi_call(muongrabi_lent_bytes(list), muongrabi_lent_length(list, list_length),
                   muongrabi_lent_area(image), muongrabi_lent_length(image, image_length),
                   muongrabi_lent_area(stash), muongrabi_lent_length(stash, stash_length),
                   muongrabi_lent_area(work), muongrabi_lent_length(work, work_length),
                   muongrabi_lent_area(result), muongrabi_lent_length(result, result_length),
                   muongrabi_lent_bytes(patch), muongrabi_lent_length(patch, patch_length),
                   muongrabi_lent_bytes(piece), muongrabi_lent_length(piece, piece_length),
                   state->bytes, answer);
    return muongrabi_answered(answer);
}

/*
 * Opens the list, then calls with pieces of data, whose lengths are the cuts_length numbers of cuts, cut short where data ends, and
 * once more with all that is left; after a stop it calls on, so that MUONGRABI_STOP is not answered. The answer is the last call's, its taken the sum
 * over all calls. The state after that call is put into *state, which must not be null; what it held is not looked at. A refused opening is answered
 * with MUONGRABI_REFUSED, its number, line and byte, and taken 0; nothing but *state is changed then, which is the opening's.
 */
static inline muongrabi_answer muongrabi_run_lent(const uint8_t *list, size_t list_length,
                                                  uint8_t *image, size_t image_length,
                                                  uint8_t *stash, size_t stash_length,
                                                  uint8_t *work, size_t work_length,
                                                  uint8_t *result, size_t result_length,
                                                  const uint8_t *patch, size_t patch_length,
                                                  const uint8_t *data, size_t data_length,
                                                  const size_t *cuts, size_t cuts_length,
                                                  muongrabi_state *state)
{
    uint64_t answer[5];
    (void)muongrabi_abi_6();
    muongrabi_run(muongrabi_lent_bytes(list), muongrabi_lent_length(list, list_length),
                  muongrabi_lent_area(image), muongrabi_lent_length(image, image_length),
                  muongrabi_lent_area(stash), muongrabi_lent_length(stash, stash_length),
                  muongrabi_lent_area(work), muongrabi_lent_length(work, work_length),
                  muongrabi_lent_area(result), muongrabi_lent_length(result, result_length),
                  muongrabi_lent_bytes(patch), muongrabi_lent_length(patch, patch_length),
                  muongrabi_lent_bytes(data), muongrabi_lent_length(data, data_length),
                  muongrabi_lent_numbers(cuts), muongrabi_lent_length(cuts, cuts_length),
                  state->bytes, answer);
    return muongrabi_answered(answer);
}

/*
 * Makes the state that has these fields; neither pointer may be null. Every value of every field has one, and no two share one: what muongrabi_restore
 * has read becomes the same bytes again. To store a state it is not needed: its bytes are what is stored.
 */
static inline void muongrabi_save_lent(const muongrabi_fields *fields, muongrabi_state *state)
{
    size_t numbers[16];
    (void)muongrabi_abi_6();
    numbers[0] = fields->count;
    numbers[1] = fields->line;
    numbers[2] = fields->at;
    numbers[3] = fields->into;
    numbers[4] = fields->total;
    numbers[5] = fields->ready;
    numbers[6] = fields->stretches;
    numbers[7] = fields->refusal.number;
    numbers[8] = fields->refusal.line;
    numbers[9] = fields->refusal.byte;
    numbers[10] = fields->lengths.list;
    numbers[11] = fields->lengths.image;
    numbers[12] = fields->lengths.stash;
    numbers[13] = fields->lengths.work;
    numbers[14] = fields->lengths.result;
    numbers[15] = fields->lengths.patch;
    muongrabi_save(fields->hashes, fields->sizes, numbers, state->bytes);
}

/*
 * Reads the fields of the state whose bytes these are, stored ones or state.bytes, and gives 0; or gives 20, exactly when the bytes are no state's saved
 * form, and leaves *fields, which must not be null, as it was. It does not ask whether the state fits a list and areas: a call does (17).
 */
static inline size_t muongrabi_restore_lent(const uint8_t *bytes, size_t bytes_length, muongrabi_fields *fields)
{
    size_t numbers[16], number;
    (void)muongrabi_abi_6();
    number = muongrabi_restore(muongrabi_lent_bytes(bytes), muongrabi_lent_length(bytes, bytes_length), fields->hashes, fields->sizes, numbers);
    if (number != 0) return number;
    fields->count = numbers[0];
    fields->line = numbers[1];
    fields->at = numbers[2];
    fields->into = numbers[3];
    fields->total = numbers[4];
    fields->ready = numbers[5];
    fields->stretches = numbers[6];
    fields->refusal.number = numbers[7];
    fields->refusal.line = numbers[8];
    fields->refusal.byte = numbers[9];
    fields->lengths.list = numbers[10];
    fields->lengths.image = numbers[11];
    fields->lengths.stash = numbers[12];
    fields->lengths.work = numbers[13];
    fields->lengths.result = numbers[14];
    fields->lengths.patch = numbers[15];
    return 0;
}

/*
 * Loads a sparse file into the image, which has as many blocks as the file's header says (a number of 32 bits, little-endian, at its byte 16):
 * a raw chunk's blocks get the bytes it carries, a fill's blocks its four bytes over and over, and don't-care blocks keep what the image has.
 * Gives 0, or 30 to 36: that of the header, else the earliest faulty chunk's lowest (a 0xCAC4 chunk is always 35), else that of the end. The
 * whole file is checked before the first byte is written, so a file that is refused leaves the image as it was. Minor version, checksum
 * field and reserved bytes are not looked at.
 */
static inline uint32_t muongrabi_sparse_load_lent(const uint8_t *file, size_t file_length, uint8_t *image, size_t image_length)
{
    (void)muongrabi_abi_6();
    return muongrabi_sparse_load(muongrabi_lent_bytes(file), muongrabi_lent_length(file, file_length),
                                 muongrabi_lent_area(image), muongrabi_lent_length(image, image_length));
}

#define muongrabi_digest muongrabi_digest_lent
#define muongrabi_open muongrabi_open_lent
#define muongrabi_call muongrabi_call_lent
#define muongrabi_run muongrabi_run_lent
#define muongrabi_save muongrabi_save_lent
#define muongrabi_restore muongrabi_restore_lent
#define muongrabi_sparse_load muongrabi_sparse_load_lent

#ifdef __cplusplus
}
#endif

#endif
