/*
 * A regulator's night in an image: make it, append frames, survive a stop and a failing probe, and
 * read the heater's duty of the last frame. Where a file is named, the image is written to it as the
 * stop leaves it.
 */
#include "dialmoth.h"

#include <inttypes.h>
#include <stdio.h>
#include <stdlib.h>
#include <string.h>

/* Laid out beforehand and longer than what is used at first, as a region of flash would be. */
static uint8_t image[4096];

/* Where a refusal is a mistake of this program. */
static void must(const char *what, uint64_t number)
{
    if (number != 0) {
        fprintf(stderr, "%s: refused %" PRIu64 ": %s\n", what, number,
                dialmoth_refusal_text(number));
        exit(1);
    }
}

static uint8_t *put(uint8_t *at, const void *bytes, size_t count)
{
    memcpy(at, bytes, count);
    return at + count;
}

/* Writes one row of a sheet's table. */
static uint8_t *put_row(uint8_t *at, uint64_t n, uint32_t m, uint8_t type, const char *name)
{
    int k;
    for (k = 0; k < 8; k++)
        *at++ = (uint8_t)(n >> 8 * k);
    for (k = 0; k < 4; k++)
        *at++ = (uint8_t)(m >> 8 * k);
    *at++ = type;
    *at++ = (uint8_t)strlen(name);
    *at++ = 0;
    *at++ = 0;
    return at;
}

static uint8_t *put_readings(uint8_t *at, const float probe[3])
{
    int k;
    for (k = 0; k < 3; k++) {
        uint32_t bits;
        memcpy(&bits, &probe[k], 4);
        *at++ = (uint8_t)bits;
        *at++ = (uint8_t)(bits >> 8);
        *at++ = (uint8_t)(bits >> 16);
        *at++ = (uint8_t)(bits >> 24);
    }
    return at;
}

/* Three readings and the heater's duty in per cent; what is NULL has no row. Answers its length. */
static size_t make_sheet(uint8_t sheet[128], const float *probe, const uint8_t *duty)
{
    uint8_t *end = put(sheet, "\0\0\0\0", 4);

    sheet[0] = (probe != NULL) + (duty != NULL);
    if (probe != NULL)
        end = put_row(end, 3, 1, DIALMOTH_FLOAT, "probe");
    if (duty != NULL)
        end = put_row(end, 1, 1, DIALMOTH_U8, "heater");
    if (probe != NULL)
        end = put_readings(put(end, "probe", 5), probe);
    if (duty != NULL)
        end = put(put(end, "heater", 6), duty, 1);
    return (size_t)(end - sheet);
}

/*
 * Appends a frame of what there is; a frame of nothing is none. Readings that hold a NaN are refused
 * and left out: the frame then has no chunk of them. All is done in one turn of at most `limit`
 * stores (turns.c makes more of them); answers whether the frame is there.
 */
static int append_frame(const float *probe, const uint8_t *duty, uint64_t limit)
{
    uint8_t sheet[128];
    uint64_t state[DIALMOTH_STATE_WORDS], begun[2], made[1], number;
    size_t length = make_sheet(sheet, probe, duty);

    if (probe == NULL && duty == NULL)
        return 0;
    number = dialmoth_begin(image, sizeof image, sheet, length, state, begun);
    if (number == DIALMOTH_NAN_IN_SHEET) {
        printf("append: a reading is a NaN\n");
        return append_frame(NULL, duty, limit);
    }
    must("begin", number);
    must("turn", dialmoth_turn(state, image, sizeof image, sheet, length, limit, made));
    printf("append: %" PRIu64 " of %" PRIu64 " stores\n", made[0], begun[0]);
    return made[0] == begun[0];
}

/* The duty of the last frame. That there is none is an answer of its own, and not a number. */
static void print_last_duty(void)
{
    uint64_t counts[3], element[2], number;

    must("open", dialmoth_open(image, sizeof image, counts));
    if (counts[0] == 0) {
        printf("no frame yet\n");
        return;
    }
    number = dialmoth_element(image, sizeof image, counts[0] - 1, DIALMOTH_TEXT("heater"), 0,
                              element);
    if (number == DIALMOTH_NO_NAME || number == DIALMOTH_NO_CHUNK) {
        printf("frame %" PRIu64 ": no heater chunk\n", counts[0] - 1);
        return;
    }
    must("element", number);
    if (element[0] != DIALMOTH_KIND_UNSIGNED) {
        fprintf(stderr, "heater: not an unsigned number\n");
        exit(1);
    }
    printf("frame %" PRIu64 ": heater duty %" PRIu64 "\n", counts[0] - 1, element[1]);
}

static void save(const char *path)
{
    FILE *file = fopen(path, "wb");
    if (file == NULL || fwrite(image, 1, sizeof image, file) != sizeof image || fclose(file) != 0) {
        perror(path);
        exit(1);
    }
}

int main(int count, char **words)
{
    static const float evening[3] = {21.5f, 22.25f, 19.0f}, night[3] = {18.5f, 18.75f, 17.5f};
    const float failing[3] = {18.5f, strtof("nan", NULL), 17.5f};
    const uint8_t duty = 40, more = 55;

    must("create", dialmoth_create(image, sizeof image, DIALMOTH_TEXT("regulator"),
                                   DIALMOTH_TEXT("night"), 0x00010000, 8, 1));
    print_last_duty();

    append_frame(evening, &duty, UINT64_MAX);
    print_last_duty();

    /* The heater does not answer: the frame has no chunk of it. */
    append_frame(evening, NULL, UINT64_MAX);
    print_last_duty();

    /* An append stops after ten stores, and its state is lost: the last frame reads as before. */
    if (append_frame(night, &more, 10))
        return 1;
    print_last_duty();
    if (count > 1)
        save(words[1]);

    /* The same append is begun again, and now made to its end. */
    if (!append_frame(night, &more, UINT64_MAX))
        return 1;
    print_last_duty();

    /* The probe card fails: the frame has no chunk of it, and the heater's all the same. */
    if (!append_frame(failing, &duty, UINT64_MAX))
        return 1;
    print_last_duty();
    return 0;
}
