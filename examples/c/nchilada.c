/*
 * A physicist takes frames of a recorded night to NChilada files. These lie in a folder for each output
 * step, in it one for each family, in that a file for each property; so the chunks are named by family
 * and property. A probe that was unplugged in a frame has no chunk there and gets no file; the heater's
 * duty is a byte, which such a file does not hold. Where a folder is named, the files go there.
 */
#define _POSIX_C_SOURCE 200809L /* mkdir */
#include "dialmoth.h"

#include <errno.h>
#include <inttypes.h>
#include <stdio.h>
#include <stdlib.h>
#include <string.h>
#include <sys/stat.h>

/* Seconds from a frame to the next. */
#define STEP 300.0

static const char *const properties[] = {"cellar/position", "cellar/temperature", "attic/position",
                                         "attic/temperature", "heater/duty"};

static uint8_t image[4096];

/* Where a refusal is a mistake of this program. */
static void must(const char *what, uint64_t number)
{
    if (number != 0) {
        fprintf(stderr, "%s: refused %" PRIu64 ": %s\n", what, number,
                dialmoth_refusal_text(number));
        exit(1);
    }
}

static void fail(const char *what)
{
    perror(what);
    exit(1);
}

/* A chunk of N by M elements, their bytes little-endian as x86-64 has them. */
struct row {
    const char *name;
    uint8_t type, n, m;
    const void *data;
    size_t length;
};

static void append(const struct row *rows, int count)
{
    uint8_t sheet[512] = {(uint8_t)count}, *at = sheet + 4;
    uint64_t out[3];
    int k;

    for (k = 0; k < count; k++, at += 16) {
        at[0] = rows[k].n;
        at[8] = rows[k].m;
        at[12] = rows[k].type;
        at[13] = (uint8_t)strlen(rows[k].name);
    }
    for (k = 0; k < count; k++) {
        size_t length = strlen(rows[k].name);
        memcpy(at, rows[k].name, length);
        memcpy(at + length, rows[k].data, rows[k].length);
        at += length + rows[k].length;
    }
    must("append", dialmoth_append(image, sizeof image, sheet, (size_t)(at - sheet), UINT64_MAX,
                                   out));
}

/* Four probes in the cellar, two in the attic, which are unplugged in frame 1, and the heater's duty. */
static void record(int frame)
{
    static const double cellar[4][3] = {
        {0.25, 0.5, -2.25}, {3.75, 0.5, -2.25}, {3.75, 4.5, -2}, {0.25, 4.5, -2}};
    static const double attic[2][3] = {{1, 2.5, 5.75}, {3, 2.5, 5.5}};
    float below[4] = {11.25f, 11.5f, 12, 10.75f}, above[2] = {0.5f, -1.75f};
    uint8_t duty = (uint8_t)(40 + 5 * frame);
    struct row rows[5];
    int count = 0, k;

    for (k = 0; k < 4; k++)
        below[k] -= 0.25f * (float)frame;
    for (k = 0; k < 2; k++)
        above[k] -= 0.5f * (float)frame;
    rows[count++] = (struct row){properties[0], DIALMOTH_DOUBLE, 4, 3, cellar, sizeof cellar};
    rows[count++] = (struct row){properties[1], DIALMOTH_FLOAT, 4, 1, below, sizeof below};
    if (frame != 1) {
        rows[count++] = (struct row){properties[2], DIALMOTH_DOUBLE, 2, 3, attic, sizeof attic};
        rows[count++] = (struct row){properties[3], DIALMOTH_FLOAT, 2, 1, above, sizeof above};
    }
    rows[count++] = (struct row){properties[4], DIALMOTH_U8, 1, 1, &duty, 1};
    append(rows, count);
}

static uint64_t big_endian(const uint8_t *at, int bytes)
{
    uint64_t number = 0;

    while (bytes-- > 0)
        number = number << 8 | *at++;
    return number;
}

static double double_at(const uint8_t *at)
{
    uint64_t bits = big_endian(at, 8);
    double value;

    memcpy(&value, &bits, 8);
    return value;
}

static double float_at(const uint8_t *at)
{
    uint32_t bits = (uint32_t)big_endian(at, 4);
    float value;

    memcpy(&value, &bits, 4);
    return (double)value;
}

/* What the header of a file says, and the extremes of each column. */
static void print_header(const uint8_t *file)
{
    uint64_t dimensions = big_endian(file + 20, 4), code = big_endian(file + 24, 4), k;
    size_t size = code == 10 ? 8 : 4;

    printf("  magic %" PRIu64 ", time %.0f s, count %" PRIu64, big_endian(file, 4),
           double_at(file + 4), big_endian(file + 12, 8));
    printf(", dimensions %" PRIu64 ", code %" PRIu64 "\n", dimensions, code);
    for (k = 0; k < dimensions; k++) {
        const uint8_t *smallest = file + 28 + k * size, *largest = smallest + dimensions * size;
        double least = size == 8 ? double_at(smallest) : float_at(smallest);
        double most = size == 8 ? double_at(largest) : float_at(largest);

        printf("  column %" PRIu64 ": %.2f to %.2f\n", k, least, most);
    }
}

/* Writes a file to this path in the folder, and makes the folders of the path. */
static void save(const char *folder, const char *path, const uint8_t *file, size_t length)
{
    char full[1024], *at;
    FILE *out;

    if (snprintf(full, sizeof full, "%s/%s", folder, path) >= (int)sizeof full) {
        fprintf(stderr, "%s: too long\n", folder);
        exit(1);
    }
    for (at = full + strlen(folder); (at = strchr(at, '/')) != NULL; *at++ = '/') {
        *at = '\0';
        if (mkdir(full, 0777) != 0 && errno != EEXIST)
            fail(full);
    }
    out = fopen(full, "wb");
    if (out == NULL || fwrite(file, 1, length, out) != length || fclose(out) != 0)
        fail(full);
}

/* The file of a property in a frame; that there is none is an answer too. */
static void take(const char *folder, uint64_t frame, const char *property)
{
    const uint8_t *name = (const uint8_t *)property;
    size_t length = 0, name_length = strlen(property);
    uint64_t entry[DIALMOTH_ENTRY_FIELDS], number;
    uint8_t *file = NULL;
    char path[64];

    snprintf(path, sizeof path, "night.%05" PRIu64 "/%s", frame, property);
    number = dialmoth_lookup(image, sizeof image, frame, name, name_length, entry);
    if (number == 0) {
        /* Of other types the length does not matter: the type is tested first. */
        size_t size = entry[DIALMOTH_ENTRY_TYPE] == DIALMOTH_DOUBLE ? 8 : 4;

        length = 28 + (2 + entry[DIALMOTH_ENTRY_N]) * entry[DIALMOTH_ENTRY_M] * size;
        file = malloc(length);
        if (file == NULL)
            fail("memory");
        number = dialmoth_nchilada(image, sizeof image, frame, name, name_length, STEP, file, length);
    }
    if (number != 0) {
        printf("%s: refused %" PRIu64 ": %s\n", path, number, dialmoth_refusal_text(number));
    } else {
        printf("%s: %zu bytes\n", path, length);
        print_header(file);
        if (folder != NULL)
            save(folder, path, file, length);
    }
    free(file);
}

int main(int count, char **words)
{
    uint64_t frame;
    size_t k;

    must("create", dialmoth_create(image, sizeof image, DIALMOTH_TEXT("regulator"),
                                   DIALMOTH_TEXT("night"), 0x00010000, 16, 2));
    for (frame = 0; frame < 3; frame++)
        record((int)frame);
    for (frame = 1; frame < 3; frame++)
        for (k = 0; k < sizeof properties / sizeof *properties; k++)
            take(count > 1 ? words[1] : NULL, frame, properties[k]);
    return 0;
}
