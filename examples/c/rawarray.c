/*
 * A physicist at a cabinet takes the chunks of a recorded frame to RawArray files, and brings files into
 * the image, a frame each, those of other programs too. A text of characters comes back as bytes; complex
 * numbers are refused, and so is a NaN, by the append. Where a folder is named, the files go there.
 */
#define _POSIX_C_SOURCE 200809L /* mkdir */
#include "dialmoth.h"

#include <errno.h>
#include <inttypes.h>
#include <math.h>
#include <stdio.h>
#include <stdlib.h>
#include <string.h>
#include <sys/stat.h>

/* A text as two arguments, as DIALMOTH_TEXT has a literal. */
#define TEXT(text) (const uint8_t *)(text), strlen(text)

static uint8_t image[4096];

/* Where a refusal is a mistake of this program. */
static void must(const char *what, uint64_t number)
{
    if (number != 0) {
        fprintf(stderr, "%s: refused %" PRIu64 ": %s\n", what, number,
                dialmoth_refusal_text(number));
        exit(1);
    }
}

static void fail(const char *what)
{
    perror(what);
    exit(1);
}

static uint8_t *room(size_t length)
{
    uint8_t *bytes = malloc(length);

    if (bytes == NULL)
        fail("memory");
    return bytes;
}

/* A chunk of N by M elements, their bytes little-endian as x86-64 has them. */
struct row {
    const char *name;
    uint8_t type, n, m;
    const void *data;
    size_t length;
};

/* Frame 0: three probes, three speeds of each of two fans, and a text. */
static void record(void)
{
    static const float probe[3] = {21.5f, 22.25f, 19};
    static const uint16_t fans[2][3] = {{400, 900, 1500}, {350, 800, 1400}};
    const struct row rows[3] = {{"probe", DIALMOTH_FLOAT, 3, 1, probe, sizeof probe},
                                {"fans", DIALMOTH_U16, 2, 3, fans, sizeof fans},
                                {"note", DIALMOTH_CHARACTER, 9, 1, "door open", 9}};
    uint8_t sheet[128] = {3}, *at = sheet + 4;
    uint64_t out[3];
    int k;

    for (k = 0; k < 3; k++, at += 16) {
        at[0] = rows[k].n;
        at[8] = rows[k].m;
        at[12] = rows[k].type;
        at[13] = (uint8_t)strlen(rows[k].name);
    }
    for (k = 0; k < 3; k++) {
        size_t length = strlen(rows[k].name);
        memcpy(at, rows[k].name, length);
        memcpy(at + length, rows[k].data, rows[k].length);
        at += length + rows[k].length;
    }
    must("append", dialmoth_append(image, sizeof image, sheet, (size_t)(at - sheet), UINT64_MAX,
                                   out));
}

static void print_element(const uint64_t element[2])
{
    uint32_t low = (uint32_t)element[1];
    float single;
    double value;

    memcpy(&single, &low, 4);
    memcpy(&value, &element[1], 8);
    switch (element[0]) {
    case DIALMOTH_KIND_UNSIGNED:
        printf(" %" PRIu64, element[1]);
        break;
    case DIALMOTH_KIND_SIGNED:
        printf(" %" PRId64, (int64_t)element[1]);
        break;
    case DIALMOTH_KIND_SINGLE:
        printf(" %.4f", (double)single);
        break;
    case DIALMOTH_KIND_DOUBLE:
        printf(" %.4f", value);
        break;
    }
}

static void print_chunk(uint64_t frame, const char *name)
{
    uint64_t entry[DIALMOTH_ENTRY_FIELDS], element[2], k;

    must("lookup", dialmoth_lookup(image, sizeof image, frame, TEXT(name), entry));
    printf("  frame %" PRIu64 ": N %" PRIu64 ", M %" PRIu64 ", type %" PRIu64 ":", frame,
           entry[DIALMOTH_ENTRY_N], entry[DIALMOTH_ENTRY_M], entry[DIALMOTH_ENTRY_TYPE]);
    for (k = 0; k < entry[DIALMOTH_ENTRY_N] * entry[DIALMOTH_ENTRY_M]; k++) {
        must("element", dialmoth_element(image, sizeof image, frame, TEXT(name), k, element));
        print_element(element);
    }
    printf("\n");
}

static void save(const char *folder, const char *path, const uint8_t *file, size_t length)
{
    char full[1024];
    FILE *out;

    if (snprintf(full, sizeof full, "%s/%s", folder, path) >= (int)sizeof full) {
        fprintf(stderr, "%s: too long\n", folder);
        exit(1);
    }
    if (mkdir(folder, 0777) != 0 && errno != EEXIST)
        fail(folder);
    out = fopen(full, "wb");
    if (out == NULL || fwrite(file, 1, length, out) != length || fclose(out) != 0)
        fail(full);
}

/* The file of a chunk of frame 0, which the caller frees, and its length. */
static uint8_t *take(const char *folder, const char *name, size_t *length)
{
    uint64_t place[2], words[8];
    char path[64];
    uint8_t *file;

    must("chunk", dialmoth_chunk(image, sizeof image, 0, TEXT(name), place));
    *length = 64 + place[1];
    file = room(*length);
    must("write", dialmoth_rawarray_write(image, sizeof image, 0, TEXT(name), file, *length));
    snprintf(path, sizeof path, "%s.ra", name);
    printf("%s: %zu bytes\n", path, *length);
    print_chunk(0, name);
    memcpy(words, file, sizeof words);
    printf("  file: type %" PRIu64 ", width %" PRIu64 ", data %" PRIu64, words[2], words[3], words[4]);
    printf(", dimensions %" PRIu64 " and %" PRIu64 "\n", words[6], words[7]);
    if (folder != NULL)
        save(folder, path, file, *length);
    return file;
}

/* Appends what a file holds as a frame, under a name; that it cannot be is an answer too. */
static void bring(const char *path, const uint8_t *file, size_t length, const char *name)
{
    uint64_t data = 0, counts[3], out[3], number;
    size_t sheet_length;
    uint8_t *sheet;

    /* A file that says more data than it has bytes is refused, however long the sheet. */
    if (length >= 40)
        memcpy(&data, file + 32, 8);
    sheet_length = 20 + strlen(name) + (data <= length ? data : 0);
    sheet = room(sheet_length);
    number = dialmoth_rawarray_read(file, length, TEXT(name), sheet, sheet_length);
    if (number != 0) {
        printf("%s: refused %" PRIu64 ": %s\n", path, number, dialmoth_refusal_text(number));
        free(sheet);
        return;
    }
    number = dialmoth_append(image, sizeof image, sheet, sheet_length, UINT64_MAX, out);
    free(sheet);
    if (number != 0) {
        printf("%s: read, but not appended: refused %" PRIu64 ": %s\n", path, number,
               dialmoth_refusal_text(number));
        return;
    }
    printf("%s: appended as %s\n", path, name);
    must("open", dialmoth_open(image, sizeof image, counts));
    print_chunk(counts[0] - 1, name);
}

/* A file as another program makes it, of one dimension and with a text behind its data. */
static size_t foreign(uint8_t file[256], uint64_t type, uint64_t width, uint64_t n, const void *data)
{
    const uint64_t words[6] = {0, type, width, n * width, 1, n};

    memcpy(file, "rawarray", 8);
    memcpy(file + 8, words, sizeof words);
    memcpy(file + 56, data, n * width);
    memcpy(file + 56 + n * width, "bench 4", 7);
    return 56 + n * width + 7;
}

int main(int count, char **words)
{
    static const double constants[4] = {1.0625, -0.5, 0.9375, 21.25};
    static const float spectrum[2][2] = {{1, 0}, {0.5f, -0.5f}}, drift[3] = {0.25f, NAN, 0.5f};
    const char *folder = count > 1 ? words[1] : NULL;
    uint8_t file[256], *note;
    size_t length, note_length;

    must("create", dialmoth_create(image, sizeof image, DIALMOTH_TEXT("regulator"),
                                   DIALMOTH_TEXT("night"), 0x00010000, 16, 2));
    record();
    free(take(folder, "probe", &length));
    free(take(folder, "fans", &length));
    note = take(folder, "note", &note_length);

    length = foreign(file, 3, sizeof *constants, 4, constants);
    bring("constants.ra", file, length, "calibration");
    bring("note.ra", note, note_length, "note");
    free(note);
    /* Complex floats, two floats each. */
    length = foreign(file, 4, sizeof *spectrum, 2, spectrum);
    bring("spectrum.ra", file, length, "spectrum");
    length = foreign(file, 3, sizeof *drift, 3, drift);
    bring("drift.ra", file, length, "drift");
    return 0;
}
