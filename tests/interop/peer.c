/*
 * The library's calls on files, for the interoperation tests.
 *
 *   peer create FILE LENGTH SLOTS SEGMENTS   writes a fresh image; prints the number
 *   peer append FILE SHEET LIMIT             appends in turns; prints the number, stores done and whole,
 *                                            and entries copied; status 1 where the single call
 *                                            answers otherwise or leaves other bytes
 *   peer list FILE                           prints the number; if 0, the counts, then a line
 *                                            "name HEX" for each name and for each entry
 *                                            "entry frame N location M id type flags start length",
 *                                            start and length as the chunk is handed out, then its
 *                                            elements as kind:bits; status 1 where a lookup finds
 *                                            another entry, or a chunk that no entry tells of, or where
 *                                            a reader answers otherwise
 *   peer nchilada FILE STEP FILES            prints the number; if 0, for the NChilada file of each
 *                                            entry's chunk a line "frame id number length", and writes
 *                                            these files one behind the other to FILES; status 1 where a
 *                                            slice of another length is not refused, or a refusal writes
 *   peer rawarray FILE FILES SHEETS          the same for RawArray files; each is read back under the name
 *                                            "again", and these sheets go to SHEETS, one behind the other
 *   peer sheet FILE NAME SHEET               reads a RawArray file under the name that is in NAME; prints
 *                                            the number; if 0, writes SHEET; status 1 where a slice of
 *                                            another length is not refused, or a refusal writes
 */
#include "dialmoth.h"

#include <inttypes.h>
#include <stdio.h>
#include <stdlib.h>
#include <string.h>

struct bytes {
    uint8_t *start;
    size_t length;
};

static void fail(const char *what)
{
    perror(what);
    exit(2);
}

static struct bytes load(const char *path)
{
    struct bytes bytes;
    FILE *file = fopen(path, "rb");
    long length;

    if (file == NULL || fseek(file, 0, SEEK_END) != 0 || (length = ftell(file)) < 0)
        fail(path);
    rewind(file);
    bytes.length = (size_t)length;
    bytes.start = malloc(bytes.length + 1);
    if (bytes.start == NULL || fread(bytes.start, 1, bytes.length, file) != bytes.length)
        fail(path);
    fclose(file);
    return bytes;
}

static void save(const char *path, struct bytes bytes)
{
    FILE *file = fopen(path, "wb");
    if (file == NULL || fwrite(bytes.start, 1, bytes.length, file) != bytes.length || fclose(file) != 0)
        fail(path);
}

static uint64_t number(const char *text)
{
    return strtoull(text, NULL, 10);
}

static int create(const char *path, size_t length, uint64_t slots, uint64_t segments)
{
    struct bytes image;
    uint64_t refused;

    image.length = length;
    image.start = calloc(length + 1, 1);
    if (image.start == NULL)
        fail("image");
    refused = dialmoth_create(image.start, image.length, (const uint8_t *)"dialmoth", 8,
                              (const uint8_t *)"interop", 7, 0x00010002, slots, segments);
    printf("%" PRIu64 "\n", refused);
    save(path, image);
    return 0;
}

static int append(const char *path, const char *sheet_path, uint64_t limit)
{
    struct bytes image = load(path), same = load(path), sheet = load(sheet_path);
    uint64_t state[DIALMOTH_STATE_WORDS], begun[2], made[1], out[3], done = 0;
    uint64_t limits[] = { limit / 3, limit / 3, limit - 2 * (limit / 3) };
    uint64_t refused =
        dialmoth_begin(image.start, image.length, sheet.start, sheet.length, state, begun);
    size_t n;

    for (n = 0; refused == 0 && n < 3; n++) {
        if (dialmoth_turn(state, image.start, image.length, sheet.start, sheet.length, limits[n], made) != 0)
            return 1;
        done += made[0];
    }
    if (dialmoth_append(same.start, same.length, sheet.start, sheet.length, limit, out) != refused
        || out[0] != done || out[1] != begun[0] || out[2] != begun[1]
        || memcmp(same.start, image.start, image.length) != 0)
        return 1;
    printf("%" PRIu64 " %" PRIu64 " %" PRIu64 " %" PRIu64 "\n", refused, done, begun[0], begun[1]);
    save(path, image);
    return 0;
}

/* Whether the lookups of a name find no other chunk than the entries tell of: in their frames, in the
 * frame before each that has none, and in the one behind all. It adds up the chunks found. It goes by the
 * entries, for two of them can lie four milliards of frames apart. */
static int finds_no_more(struct bytes image, const uint64_t counts[3], const uint64_t name[2],
                         uint64_t *chunks)
{
    const uint8_t *start = image.start + name[0];
    uint64_t entry[DIALMOTH_ENTRY_FIELDS], found[DIALMOTH_ENTRY_FIELDS], last = UINT64_MAX, n;

    for (n = 0; n < counts[2]; n++) {
        uint64_t frame, refused;

        if (dialmoth_entry(image.start, image.length, n, entry) != 0)
            return 0;
        frame = entry[DIALMOTH_ENTRY_FRAME];
        if (frame == last)
            continue;
        if (frame != 0 && frame - 1 != last
            && dialmoth_lookup(image.start, image.length, frame - 1, start, name[1], found) != 42)
            return 0;
        refused = dialmoth_lookup(image.start, image.length, frame, start, name[1], found);
        if (refused != 0 && refused != 42)
            return 0;
        *chunks += refused == 0;
        last = frame;
    }
    return dialmoth_lookup(image.start, image.length, counts[0], start, name[1], found) == 40;
}

/* Whether a reader has the n-th name at this place, by its id and by its number. */
static int reads_name(const uint64_t *reader, struct bytes image, uint64_t n, const uint64_t place[2])
{
    uint64_t same[2], id[1];

    return dialmoth_reader_name(reader, image.start, image.length, n, same) == 0
           && memcmp(same, place, sizeof same) == 0
           && dialmoth_reader_id(reader, image.start, image.length, image.start + place[0], place[1], id) == 0
           && id[0] == n;
}

/* Whether it has this as the n-th entry, and finds it by name, by id and as the newest of its frame. */
static int reads_entry(const uint64_t *reader, struct bytes image, uint64_t n, const uint64_t *entry,
                       const uint64_t name[2])
{
    uint64_t found[4][DIALMOTH_ENTRY_FIELDS], frame = entry[DIALMOTH_ENTRY_FRAME];
    uint64_t id = entry[DIALMOTH_ENTRY_ID];

    return dialmoth_reader_entry(reader, image.start, image.length, n, found[0]) == 0
           && dialmoth_reader_lookup(reader, image.start, image.length, frame, image.start + name[0],
                                     name[1], found[1]) == 0
           && dialmoth_reader_find(reader, image.start, image.length, frame, id, found[2]) == 0
           && dialmoth_reader_newest(reader, image.start, image.length, frame, id, found[3]) == 0
           && memcmp(found[0], entry, sizeof found[0]) == 0 && memcmp(found[1], entry, sizeof found[1]) == 0
           && memcmp(found[2], entry, sizeof found[2]) == 0 && memcmp(found[3], entry, sizeof found[3]) == 0;
}

static int list(const char *path)
{
    struct bytes image = load(path);
    uint64_t counts[3], place[2], entry[DIALMOTH_ENTRY_FIELDS], found[DIALMOTH_ENTRY_FIELDS];
    uint64_t reader[DIALMOTH_READER_WORDS], same[2];
    uint64_t refused = dialmoth_open(image.start, image.length, counts);
    uint64_t n, k, chunks = 0;

    if (dialmoth_reader_open(image.start, image.length, reader) != refused)
        return 1;
    printf("%" PRIu64 "\n", refused);
    if (refused != 0)
        return 0;
    if (memcmp(reader, counts, sizeof counts) != 0)
        return 1;
    printf("%" PRIu64 " %" PRIu64 " %" PRIu64 "\n", counts[0], counts[1], counts[2]);
    for (n = 0; n < counts[1]; n++) {
        if (dialmoth_name(image.start, image.length, n, place) != 0
            || !finds_no_more(image, counts, place, &chunks) || !reads_name(reader, image, n, place))
            return 1;
        printf("name ");
        for (k = 0; k < place[1]; k++)
            printf("%02x", image.start[place[0] + k]);
        printf("\n");
    }
    for (n = 0; n < counts[2]; n++) {
        const uint8_t *name;
        uint64_t frame;

        if (dialmoth_entry(image.start, image.length, n, entry) != 0
            || dialmoth_name(image.start, image.length, entry[DIALMOTH_ENTRY_ID], place) != 0)
            return 1;
        name = image.start + place[0];
        frame = entry[DIALMOTH_ENTRY_FRAME];
        if (dialmoth_lookup(image.start, image.length, frame, name, place[1], found) != 0
            || memcmp(entry, found, sizeof entry) != 0 || !reads_entry(reader, image, n, entry, place))
            return 1;
        printf("entry");
        for (k = 0; k < DIALMOTH_ENTRY_FIELDS; k++)
            printf(" %" PRIu64, entry[k]);
        {
            uint64_t chunk[2], element[2];
            if (dialmoth_chunk(image.start, image.length, frame, name, place[1], chunk) != 0
                || dialmoth_reader_chunk(reader, image.start, image.length, frame, name, place[1], same) != 0
                || memcmp(chunk, same, sizeof same) != 0)
                return 1;
            printf(" %" PRIu64 " %" PRIu64, chunk[0], chunk[1]);
            for (k = 0; k < 64; k++) {
                refused = dialmoth_element(image.start, image.length, frame, name, place[1], k, element);
                if (dialmoth_reader_element(reader, image.start, image.length, frame, name, place[1], k, same)
                    != refused)
                    return 1;
                if (refused == 43)
                    break;
                if (refused != 0 || memcmp(element, same, sizeof same) != 0)
                    return 1;
                printf(" %" PRIu64 ":%" PRIu64, element[0], element[1]);
            }
        }
        printf("\n");
    }
    return chunks == counts[2] ? 0 : 1;
}

/* A chunk, by frame and name. */
struct named {
    uint64_t frame;
    const uint8_t *name;
    size_t name_length;
};

/* What a slice has before a call, and one byte behind it. */
#define KEPT 0xA5

/* Ends where a call that answered this number wrote behind its slice, or refused and wrote. */
static void check_kept(uint64_t refused, const uint8_t *slice, size_t length)
{
    size_t k;

    for (k = refused == 0 ? length : 0; k <= length; k++)
        if (slice[k] != KEPT)
            exit(1);
}

/* The number answered for a chunk's file in a slice of so many bytes: of its NChilada file, or of its
 * RawArray file where no step is given. */
static uint64_t write_file(struct bytes image, struct named chunk, const double *step, uint8_t *file,
                           size_t length)
{
    uint64_t refused;

    memset(file, KEPT, length + 1);
    if (step == NULL)
        refused = dialmoth_rawarray_write(image.start, image.length, chunk.frame, chunk.name,
                                          chunk.name_length, file, length);
    else
        refused = dialmoth_nchilada(image.start, image.length, chunk.frame, chunk.name, chunk.name_length,
                                    *step, file, length);
    check_kept(refused, file, length);
    return refused;
}

/* Bytes of the file of an entry's chunk; 0 where its type or its M is not for one. */
static size_t file_length(const uint64_t *entry, const double *step)
{
    static const uint8_t sizes[] = { 0, 1, 2, 4, 8, 1, 2, 4, 8, 4, 8, 1 };
    uint64_t type = entry[DIALMOTH_ENTRY_TYPE], n = entry[DIALMOTH_ENTRY_N], m = entry[DIALMOTH_ENTRY_M];

    if (step == NULL)
        return 64 + n * m * sizes[type];
    if ((type != DIALMOTH_FLOAT && type != DIALMOTH_DOUBLE) || (m != 1 && m != 3))
        return 0;
    return 28 + (2 + n) * m * sizes[type];
}

/* The number answered for a RawArray file's sheet in a slice of so many bytes. */
static uint64_t read_file(struct bytes file, struct bytes name, uint8_t *sheet, size_t length)
{
    uint64_t refused;

    memset(sheet, KEPT, length + 1);
    refused = dialmoth_rawarray_read(file.start, file.length, name.start, name.length, sheet, length);
    check_kept(refused, sheet, length);
    return refused;
}

/* Reads a RawArray file into a sheet as long as the file tells, and into others, which must be refused;
 * answers the number. */
static uint64_t read_sheet(struct bytes file, struct bytes name, struct bytes *sheet)
{
    uint64_t data = 0, refused, other;

    if (file.length >= 48)
        memcpy(&data, file.start + 32, sizeof data);
    /* A file with less than that is refused, whatever the slice. */
    sheet->length = 20 + name.length + (data <= file.length ? data : 0);
    sheet->start = malloc(sheet->length + 2);
    if (sheet->start == NULL)
        fail("sheet");
    other = read_file(file, name, sheet->start, sheet->length + 1);
    if (read_file(file, name, sheet->start, sheet->length - 1) != other
        || read_file(file, name, sheet->start, 0) != other)
        exit(1);
    refused = read_file(file, name, sheet->start, sheet->length);
    if (other != (refused == 0 ? 79 : refused))
        exit(1);
    return refused;
}

static void add(FILE *file, struct bytes bytes)
{
    if (fwrite(bytes.start, 1, bytes.length, file) != bytes.length)
        fail("fwrite");
}

/* The NChilada files where a step is given, else the RawArray files and what they become again. */
static int write_files(const char *path, const double *step, const char *files_path,
                       const char *sheets_path)
{
    struct bytes image = load(path), file, made, again = { (uint8_t *)"again", 5 };
    struct named none = { 0, DIALMOTH_TEXT("no such name") };
    FILE *files = fopen(files_path, "wb"), *sheets = sheets_path == NULL ? NULL : fopen(sheets_path, "wb");
    uint64_t counts[3], n, refused = dialmoth_open(image.start, image.length, counts);

    /* No file is longer than its chunk and 76 bytes. */
    file.start = malloc(image.length + 100);
    if (files == NULL || (sheets == NULL && sheets_path != NULL) || file.start == NULL)
        fail(files_path);
    printf("%" PRIu64 "\n", refused);
    if (refused != 0)
        return write_file(image, none, step, file.start, 40) != refused;
    if (counts[0] > 0 && write_file(image, none, step, file.start, 40) != 41)
        return 1;
    none.frame = counts[0];
    if (write_file(image, none, step, file.start, 40) != 40)
        return 1;
    for (n = 0; n < counts[2]; n++) {
        uint64_t entry[DIALMOTH_ENTRY_FIELDS], place[2], other;
        struct named chunk;

        if (dialmoth_entry(image.start, image.length, n, entry) != 0
            || dialmoth_name(image.start, image.length, entry[DIALMOTH_ENTRY_ID], place) != 0)
            return 1;
        chunk.frame = entry[DIALMOTH_ENTRY_FRAME];
        chunk.name = image.start + place[0];
        chunk.name_length = place[1];
        file.length = file_length(entry, step);
        other = write_file(image, chunk, step, file.start, file.length + 1);
        if (file.length > 0 && write_file(image, chunk, step, file.start, file.length - 1) != other)
            return 1;
        refused = write_file(image, chunk, step, file.start, file.length);
        if (other != (refused != 0 ? refused : step == NULL ? 77 : 64))
            return 1;
        printf("%" PRIu64 " %" PRIu64 " %" PRIu64 " %zu\n", chunk.frame, entry[DIALMOTH_ENTRY_ID], refused,
               file.length);
        if (refused != 0)
            continue;
        add(files, file);
        if (sheets != NULL) {
            if (read_sheet(file, again, &made) != 0)
                return 1;
            add(sheets, made);
            free(made.start);
        }
    }
    if (fclose(files) != 0 || (sheets != NULL && fclose(sheets) != 0))
        fail(files_path);
    return 0;
}

static int nchilada(const char *path, double step, const char *files_path)
{
    return write_files(path, &step, files_path, NULL);
}

static int sheet(const char *path, const char *name_path, const char *sheet_path)
{
    struct bytes made;
    uint64_t refused = read_sheet(load(path), load(name_path), &made);

    printf("%" PRIu64 "\n", refused);
    if (refused == 0)
        save(sheet_path, made);
    return 0;
}

int main(int count, char **words)
{
    if (count == 6 && strcmp(words[1], "create") == 0)
        return create(words[2], (size_t)number(words[3]), number(words[4]), number(words[5]));
    if (count == 5 && strcmp(words[1], "append") == 0)
        return append(words[2], words[3], number(words[4]));
    if (count == 3 && strcmp(words[1], "list") == 0)
        return list(words[2]);
    if (count == 5 && strcmp(words[1], "nchilada") == 0)
        return nchilada(words[2], strtod(words[3], NULL), words[4]);
    if (count == 5 && strcmp(words[1], "rawarray") == 0)
        return write_files(words[2], NULL, words[3], words[4]);
    if (count == 5 && strcmp(words[1], "sheet") == 0)
        return sheet(words[2], words[3], words[4]);
    fprintf(stderr, "usage: peer create|append|list|nchilada|rawarray|sheet ..\n");
    return 2;
}
