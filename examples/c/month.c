/*
 * A physicist's question of a month of frames: the least and the greatest reading of each probe. The
 * image is opened once, and a reader goes over all its entries. A probe that was unplugged has no
 * chunks in these frames, and no number stands for them.
 */
#include "dialmoth.h"

#include <inttypes.h>
#include <stdio.h>
#include <stdlib.h>
#include <string.h>

/* A frame every five minutes, for 30 days. */
#define DAY (24 * 12)
#define FRAMES (30 * DAY)

static uint8_t image[1 << 23];

/* Where a refusal is a mistake of this program. */
static void must(const char *what, uint64_t number)
{
    if (number != 0) {
        fprintf(stderr, "%s: refused %" PRIu64 ": %s\n", what, number,
                dialmoth_refusal_text(number));
        exit(1);
    }
}

/* A chunk of one element. */
struct row {
    const char *name;
    uint8_t type, size, data[4];
};

/* In quarters of a degree: a swing over each day, and half a degree more every ten days. */
static struct row reading(const char *name, int degrees, int frame)
{
    int of_day = frame % DAY, swing = (of_day < DAY / 2 ? of_day : DAY - of_day) / 9;
    float value = (float)(4 * degrees + swing + 2 * (frame / (10 * DAY))) / 4;
    struct row row = {name, DIALMOTH_FLOAT, 4, {0}};
    uint32_t bits;
    int k;

    memcpy(&bits, &value, 4);
    for (k = 0; k < 4; k++)
        row.data[k] = (uint8_t)(bits >> 8 * k);
    return row;
}

static void append(const struct row *rows, int count)
{
    uint8_t sheet[128] = {(uint8_t)count}, *at = sheet + 4;
    uint64_t out[3];
    int k;

    for (k = 0; k < count; k++, at += 16) {
        at[0] = 1; /* N */
        at[8] = 1; /* M */
        at[12] = rows[k].type;
        at[13] = (uint8_t)strlen(rows[k].name);
    }
    for (k = 0; k < count; k++) {
        size_t length = strlen(rows[k].name);
        memcpy(at, rows[k].name, length);
        memcpy(at + length, rows[k].data, rows[k].size);
        at += length + rows[k].size;
    }
    must("append", dialmoth_append(image, sizeof image, sheet, (size_t)(at - sheet), UINT64_MAX,
                                   out));
}

/* Three probes and the heater's duty; for the last ten days the attic's probe is unplugged. */
static void record(int frame)
{
    struct row rows[4];
    int count = 0;

    rows[count++] = reading("cellar", 11, frame);
    rows[count++] = reading("cabinet", 18, frame);
    if (frame < 20 * DAY)
        rows[count++] = reading("attic", -2, frame);
    rows[count] = (struct row){"heater", DIALMOTH_U8, 1, {0}};
    rows[count++].data[0] = (uint8_t)(frame % 100);
    append(rows, count);
}

static float float_at(const uint8_t *at)
{
    uint32_t bits = 0;
    float value;
    int k;

    for (k = 0; k < 4; k++)
        bits |= (uint32_t)at[k] << 8 * k;
    memcpy(&value, &bits, 4);
    return value;
}

/* Of each id; an image has at most 1,024 names. */
static struct {
    uint64_t readings;
    float least, most;
} seen[1024];

static void see(uint64_t id, float value)
{
    if (seen[id].readings == 0 || value < seen[id].least)
        seen[id].least = value;
    if (seen[id].readings == 0 || value > seen[id].most)
        seen[id].most = value;
    seen[id].readings++;
}

int main(void)
{
    uint64_t reader[DIALMOTH_READER_WORDS], entry[DIALMOTH_ENTRY_FIELDS], name[2], n, k;
    int frame;

    must("create", dialmoth_create(image, sizeof image, DIALMOTH_TEXT("regulator"),
                                   DIALMOTH_TEXT("month"), 0x00010000, 0, 0));
    for (frame = 0; frame < FRAMES; frame++)
        record(frame);

    must("open", dialmoth_reader_open(image, sizeof image, reader));
    printf("frames %" PRIu64 " names %" PRIu64 " entries %" PRIu64 "\n",
           reader[DIALMOTH_READER_FRAMES], reader[DIALMOTH_READER_NAMES],
           reader[DIALMOTH_READER_ENTRIES]);

    /* From entry to entry. In an image that opened each chunk lies within it. */
    for (n = 0; n < reader[DIALMOTH_READER_ENTRIES]; n++) {
        must("entry", dialmoth_reader_entry(reader, image, sizeof image, n, entry));
        if (entry[DIALMOTH_ENTRY_TYPE] != DIALMOTH_FLOAT)
            continue;
        for (k = 0; k < entry[DIALMOTH_ENTRY_N] * entry[DIALMOTH_ENTRY_M]; k++)
            see(entry[DIALMOTH_ENTRY_ID], float_at(image + entry[DIALMOTH_ENTRY_LOCATION] + 4 * k));
    }

    for (n = 0; n < reader[DIALMOTH_READER_NAMES]; n++) {
        must("name", dialmoth_reader_name(reader, image, sizeof image, n, name));
        if (seen[n].readings > 0)
            printf("%.*s: %" PRIu64 " readings, %.2f to %.2f\n", (int)name[1],
                   (const char *)image + name[0], seen[n].readings, (double)seen[n].least,
                   (double)seen[n].most);
    }
    return 0;
}
