/*
 * A regulator that keeps a reader: it asks for the heater's id once, and heats by the newest frame that
 * has a duty. Appends go on, one of them stopped in the middle. The kept reader answers as it did, and
 * a new one sees the new frame; where there is no duty, none is made up.
 */
#include "dialmoth.h"

#include <inttypes.h>
#include <stdio.h>
#include <stdlib.h>
#include <string.h>

static uint8_t image[4096];

/* Where a refusal is a mistake of this program. */
static void must(const char *what, uint64_t number)
{
    if (number != 0) {
        fprintf(stderr, "%s: refused %" PRIu64 ": %s\n", what, number,
                dialmoth_refusal_text(number));
        exit(1);
    }
}

/* Writes a row of one byte to a sheet's table. */
static uint8_t *put_row(uint8_t *at, const char *name)
{
    static const uint8_t row[16] = {1, 0, 0, 0, 0, 0, 0, 0, 1, 0, 0, 0, DIALMOTH_U8};
    memcpy(at, row, sizeof row);
    at[13] = (uint8_t)strlen(name);
    return at + sizeof row;
}

static uint8_t *put_body(uint8_t *at, const char *name, uint8_t byte)
{
    size_t length = strlen(name);
    memcpy(at, name, length);
    at[length] = byte;
    return at + length + 1;
}

/* Appends a frame of the fan's duty and, where the heater answers, its own, in so many stores at most. */
static void record(uint8_t fan, const uint8_t *heater, uint64_t limit)
{
    uint8_t sheet[64] = {heater != NULL ? 2 : 1}, *end = put_row(sheet + 4, "fan");
    uint64_t out[3];

    if (heater != NULL)
        end = put_row(end, "heater");
    end = put_body(end, "fan", fan);
    if (heater != NULL)
        end = put_body(end, "heater", *heater);
    must("append", dialmoth_append(image, sizeof image, sheet, (size_t)(end - sheet), limit, out));
    printf("append: %" PRIu64 " of %" PRIu64 " stores\n", out[0], out[1]);
}

/* The duty of the newest frame up to this one. That there is none is an answer, and not a number. */
static void print_duty(const char *whose, const uint64_t reader[DIALMOTH_READER_WORDS],
                       uint64_t frame, uint64_t heater)
{
    uint64_t entry[DIALMOTH_ENTRY_FIELDS], duty[2], number;

    number = dialmoth_reader_newest(reader, image, sizeof image, frame, heater, entry);
    if (number == DIALMOTH_NO_CHUNK) {
        printf("%s, up to frame %" PRIu64 ": no duty\n", whose, frame);
        return;
    }
    must("newest", number);
    must("element", dialmoth_reader_element(reader, image, sizeof image,
                                            entry[DIALMOTH_ENTRY_FRAME], DIALMOTH_TEXT("heater"),
                                            0, duty));
    if (duty[0] != DIALMOTH_KIND_UNSIGNED) {
        fprintf(stderr, "heater: not an unsigned number\n");
        exit(1);
    }
    printf("%s, up to frame %" PRIu64 ": duty %" PRIu64 " of frame %" PRIu64 "\n", whose, frame,
           duty[1], entry[DIALMOTH_ENTRY_FRAME]);
}

/* As of a reader that was kept, and of one that is opened now. */
static void print_both(const uint64_t kept[DIALMOTH_READER_WORDS], uint64_t heater)
{
    uint64_t now[DIALMOTH_READER_WORDS];

    print_duty("kept reader", kept, kept[DIALMOTH_READER_FRAMES] - 1, heater);
    must("open", dialmoth_reader_open(image, sizeof image, now));
    print_duty("new reader", now, now[DIALMOTH_READER_FRAMES] - 1, heater);
}

int main(void)
{
    const uint8_t duty = 40, more = 55;
    uint64_t kept[DIALMOTH_READER_WORDS], heater[1];

    must("create", dialmoth_create(image, sizeof image, DIALMOTH_TEXT("regulator"),
                                   DIALMOTH_TEXT("night"), 0x00010000, 4, 1));
    /* The heater answers in frame 1 alone. */
    record(20, NULL, UINT64_MAX);
    record(20, &duty, UINT64_MAX);
    record(25, NULL, UINT64_MAX);

    must("open", dialmoth_reader_open(image, sizeof image, kept));
    must("id", dialmoth_reader_id(kept, image, sizeof image, DIALMOTH_TEXT("heater"), heater));
    print_duty("kept reader", kept, 0, heater[0]);
    print_duty("kept reader", kept, kept[DIALMOTH_READER_FRAMES] - 1, heater[0]);

    /* The next append is stopped in the middle, as the index moves: no reader sees its frame. */
    record(30, &more, 20);
    print_both(kept, heater[0]);

    /* It is made again, to its end: a new reader sees the frame, and the kept one answers as before. */
    record(30, &more, UINT64_MAX);
    print_both(kept, heater[0]);
    return 0;
}
