/*
 * Loads a sparse file into an image: load_sparse FILE IMAGE
 *
 * FILE is an Android sparse file. Where it leaves blocks out, IMAGE keeps its own; where there is no IMAGE, it is made, of zeros as far as FILE
 * leaves blocks out. Prints `loaded B` (B: blocks of the image) or `refused: ` and why; a refused file leaves IMAGE alone. Exit status: 0
 * loaded, 1 refused, 2 for a file that cannot be read or written.
 */
#include <errno.h>
#include <stdio.h>
#include <stdlib.h>

#include "muongrabi.h"

static void fail(const char *name)
{
    perror(name);
    exit(2);
}

/* The whole file, which is then closed. */
static uint8_t *read_file(FILE *file, const char *name, size_t *length)
{
    size_t room = 1 << 16, used = 0, got;
    uint8_t *bytes = malloc(room);
    if (!bytes) fail(name);
    while ((got = fread(bytes + used, 1, room - used, file)) > 0) {
        used += got;
        if (used == room) {
            room *= 2;
            bytes = realloc(bytes, room);
            if (!bytes) fail(name);
        }
    }
    if (ferror(file)) fail(name);
    fclose(file);
    *length = used;
    return bytes;
}

/* As many zeros as the header has blocks. Where it has too many, or is none, the file is refused whatever the image is. */
static uint8_t *zeros(const uint8_t *file, size_t file_length, const char *name, size_t *length)
{
    size_t total = 0;
    if (file_length >= 20) total = file[16] | (size_t)file[17] << 8 | (size_t)file[18] << 16 | (size_t)file[19] << 24;
    *length = total > MUONGRABI_MOST_IMAGE ? 0 : total * MUONGRABI_BLOCK;
    uint8_t *bytes = calloc(*length ? *length : 1, 1);
    if (!bytes) fail(name);
    return bytes;
}

int main(int argc, char **argv)
{
    if (argc != 3) {
        fprintf(stderr, "usage: load_sparse FILE IMAGE\n");
        return 2;
    }
    FILE *from = fopen(argv[1], "rb");
    if (!from) fail(argv[1]);
    size_t file_length, image_length;
    uint8_t *file = read_file(from, argv[1], &file_length);

    FILE *old = fopen(argv[2], "rb");
    if (!old && errno != ENOENT) fail(argv[2]);
    const char *mode = old ? "r+b" : "wb";
    uint8_t *image = old ? read_file(old, argv[2], &image_length) : zeros(file, file_length, argv[2], &image_length);

    int status = 0;
    uint32_t number = muongrabi_sparse_load(file, file_length, image, image_length);
    if (number != 0) {
        printf("refused: %s (refusal %u)\n", muongrabi_refusal_text(number), (unsigned)number);
        status = 1;
    } else {
        FILE *to = fopen(argv[2], mode);
        if (!to) fail(argv[2]);
        if (fwrite(image, 1, image_length, to) != image_length || fclose(to) != 0) fail(argv[2]);
        printf("loaded %zu\n", image_length / MUONGRABI_BLOCK);
    }

    free(file);
    free(image);
    return status;
}
