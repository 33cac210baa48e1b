/*
 * dialmoth.h: read GSD 1.0, 2.0 and 2.1 images that lie in memory, append to those
 * of 2.0 and 2.1, write their chunks as RawArray files and those of floats and doubles
 * as NChilada files, and read RawArray files back into what an append takes.
 *
 * An image is a whole slice of memory lent by the caller, from 256 to
 * 1,073,741,824 bytes; a file's content, or a region laid out beforehand that
 * is longer than what is used. No call keeps a pointer, allocates, locks, or
 * touches anything but its arguments, and the library has no state between calls
 * (that of an append in turns and a reader are the caller's, arguments like the
 * others): any thread may call, and several at once where none writes what another
 * uses.
 *
 * The archive is for x86-64 (System V), for C and C++, and takes memcpy and
 * memset from the C library, nothing else. Beside what these two use, the stack
 * needs at most 9 KiB for a reading call, 13 KiB for append, 16 KiB for begin,
 * 11 KiB for turn, 1 KiB for create, 1 KiB for a reader's calls, 1 KiB for
 * rawarray_read; reader_open, nchilada and rawarray_write are reading calls.
 *
 * Every call answers a number: 0, or that of the refusal, listed below with its
 * name and its text. A refusal changes nothing, neither the image nor out nor a
 * reader nor a file nor a sheet; only append, begin, turn and probes set their out at
 * every call, the first three to zeros when refused, and a refused begin sets its
 * state to zeros as well.
 *
 * Opening costs at most some passes over the image's bytes, whatever it holds,
 * but for names made on purpose to have one 32-bit fingerprint: these are
 * compared pair by pair (1,024 such names of 64 KiB: seconds, each time). Where much
 * is asked of one image, open it once and keep a reader, below.
 *
 * Pointers are never null, not even with length 0; bytes may lie at any address.
 * What a call writes, the image of create, append and turn, the state, the reader of
 * reader_open, the file of nchilada and rawarray_write, the sheet of rawarray_read and
 * every out, overlaps no other argument.
 */
#ifndef DIALMOTH_H
#define DIALMOTH_H

#include <stddef.h>
#include <stdint.h>

#ifdef __cplusplus
extern "C" {
#endif

/* The refusals, R(number, name, text) for each: refused exactly when the text
 * holds. The first that applies is answered. */
#define DIALMOTH_REFUSALS(R)                                                                    \
    /* Opening, in this order; every call but create, turn, rawarray_read and those that take a \
     * reader opens first. Tests 12 to 18 run entry by entry: the first bad entry decides, and  \
     * in it the lowest number. */                                                              \
    R(1, DIALMOTH_SHORT_IMAGE, "image under 256 bytes")                                         \
    R(2, DIALMOTH_LONG_IMAGE, "image over 1,073,741,824 bytes")                                 \
    R(3, DIALMOTH_WRONG_MAGIC, "wrong magic")                                                   \
    R(4, DIALMOTH_WRONG_VERSION, "version not 1.0, 2.0 or 2.1")                                 \
    R(5, DIALMOTH_UNCLOSED_TEXT, "application or schema has no zero byte")                      \
    R(6, DIALMOTH_INDEX_OUTSIDE, "index block starts below 256 or ends beyond the image")       \
    R(7, DIALMOTH_NAMES_OUTSIDE, "name block starts below 256 or ends beyond the image")        \
    R(8, DIALMOTH_BLOCKS_OVERLAP, "index block and name block share a byte")                    \
    R(9, DIALMOTH_UNCLOSED_NAME,                                                                \
      "a name has no zero byte before its block ends, in 1.0 before its segment does")          \
    R(10, DIALMOTH_MANY_NAMES, "more than 1,024 names")                                         \
    R(11, DIALMOTH_EQUAL_NAMES, "two equal names")                                              \
    R(12, DIALMOTH_LOW_LOCATION, "an entry's location is negative, or below 256 and not 0")     \
    R(13, DIALMOTH_UNKNOWN_TYPE, "an entry's type is not known in this version")                \
    R(14, DIALMOTH_UNKNOWN_ID, "an entry's id is not below the number of names")                \
    R(15, DIALMOTH_FRAME_ORDER,                                                                 \
      "an entry's (frame, id) not above the entry before, in 1.0 a lower frame or a repeat")    \
    R(16, DIALMOTH_CHUNK_OUTSIDE, "a chunk ends beyond the image")                              \
    R(17, DIALMOTH_CHUNK_IN_BLOCK, "a chunk shares a byte with a block")                        \
    R(18, DIALMOTH_LARGE_FRAME, "an entry's frame above 4,294,967,294")                         \
    /* Append and begin, in this order. */                                                      \
    R(20, DIALMOTH_OLD_IMAGE, "the image is of version 1.0")                                    \
    R(21, DIALMOTH_UNALIGNED_BLOCK, "index or name location not a multiple of 8")               \
    R(31, DIALMOTH_FRAMES_FULL, "the last frame is 4,294,967,294")                              \
    R(22, DIALMOTH_ROW_COUNT, "sheet under 4 bytes, or its count is 0 or above 64")             \
    R(23, DIALMOTH_SHORT_TABLE, "sheet shorter than its table")                                 \
    R(24, DIALMOTH_BAD_ROW,                                                                     \
      "a row with a type not known in this version, name length 0 or spare bytes not 0")        \
    R(25, DIALMOTH_SHEET_LENGTH, "sheet's length is not exactly table plus bodies")             \
    R(26, DIALMOTH_ZERO_IN_NAME, "a name of the sheet holds a zero byte")                       \
    R(27, DIALMOTH_NAME_TWICE, "two rows of the sheet have one name")                           \
    R(30, DIALMOTH_NAN_IN_SHEET, "a float or double of the sheet is a NaN")                     \
    R(28, DIALMOTH_NAMES_FULL, "names would pass 1,024")                                        \
    R(29, DIALMOTH_NO_ROOM, "the append would pass the image's end")                            \
    /* Turn. */                                                                                 \
    R(32, DIALMOTH_NOT_EXPECTED,                                                                \
      "a refused begin's state, or a length or header words 8 to 32 not as it expects")         \
    /* Reader calls but reader_open, first; chunk and element also after 42. */                 \
    R(33, DIALMOTH_NOT_FITTING,                                                                 \
      "the reader, or a chunk found by it, does not fit the image")                             \
    /* Lookup, chunk, element and probes, find and newest, in this order; id has 41 alone. */   \
    R(40, DIALMOTH_NO_FRAME, "frame not below the number of frames")                            \
    R(41, DIALMOTH_NO_NAME, "name not listed")                                                  \
    R(42, DIALMOTH_NO_CHUNK, "no such chunk in the frame")                                      \
    R(43, DIALMOTH_NO_ELEMENT, "element number not below N times M")                            \
    /* N-th name, n-th entry. */                                                                \
    R(44, DIALMOTH_NO_NTH, "n not below the number of names or of entries")                     \
    /* Create: 2, then these in this order. */                                                  \
    R(50, DIALMOTH_LARGE_BLOCK, "more than 65,536 slots or segments")                           \
    R(51, DIALMOTH_BAD_TEXT, "application or schema over 63 bytes or holding a zero byte")      \
    R(52, DIALMOTH_SHORT_FOR_BLOCKS, "image too short for its blocks")                          \
    /* NChilada: lookup's, then these in this order. */                                         \
    R(60, DIALMOTH_NOT_FLOATS, "not floats or doubles, or M not 1 or 3")                        \
    R(61, DIALMOTH_NO_ROWS, "N is 0")                                                           \
    R(62, DIALMOTH_NAN_IN_CHUNK, "an element of the chunk is a NaN")                            \
    R(63, DIALMOTH_NOT_FINITE, "the step or the time is not finite")                            \
    R(64, DIALMOTH_FILE_LENGTH, "file slice not exactly as long as the file")                   \
    /* RawArray, writing: lookup's, then this. */                                               \
    R(77, DIALMOTH_RAWARRAY_LENGTH, "file slice not exactly as long as the RawArray file")      \
    /* RawArray, reading, in this order; it takes no image. */                                  \
    R(70, DIALMOTH_RAWARRAY_SHORT, "file under 48 bytes")                                       \
    R(71, DIALMOTH_RAWARRAY_MAGIC, "file does not begin with rawarray")                         \
    R(72, DIALMOTH_RAWARRAY_FLAGS, "the file's flags are not 0")                                \
    R(73, DIALMOTH_RAWARRAY_TYPE, "a type and width of elements that no chunk has")             \
    R(74, DIALMOTH_RAWARRAY_DIMENSIONS, "dimensions not 1 or 2, or not all in the file")        \
    R(75, DIALMOTH_RAWARRAY_DATA,                                                               \
      "data length not the dimensions times the width, or beyond the file")                     \
    R(76, DIALMOTH_RAWARRAY_COLUMNS, "M above 4,294,967,295")                                   \
    R(78, DIALMOTH_RAWARRAY_NAME, "name of length 0, above 255 or holding a zero byte")         \
    R(79, DIALMOTH_RAWARRAY_SHEET, "sheet slice not exactly as long as the sheet")

#define DIALMOTH_NAMED(number, name, text) name = number,
enum dialmoth_refusal { DIALMOTH_REFUSALS(DIALMOTH_NAMED) };
#undef DIALMOTH_NAMED

/* The text of a refusal. It may stay unused without a warning. */
#ifdef __GNUC__
__attribute__((unused))
#endif
static inline const char *dialmoth_refusal_text(uint64_t number)
{
    switch (number) {
#define DIALMOTH_SAID(number, name, text) case number: return text;
        DIALMOTH_REFUSALS(DIALMOTH_SAID)
#undef DIALMOTH_SAID
    default:
        return "not a refusal";
    }
}

/* A literal as two arguments, its bytes and how many they are:
 * dialmoth_lookup(image, length, frame, DIALMOTH_TEXT("heater"), out). */
#define DIALMOTH_TEXT(literal) \
    (const uint8_t *)("" literal), sizeof(literal) - 1

/* Types of a chunk. */
enum dialmoth_type {
    DIALMOTH_U8 = 1,
    DIALMOTH_U16 = 2,
    DIALMOTH_U32 = 3,
    DIALMOTH_U64 = 4,
    DIALMOTH_I8 = 5,
    DIALMOTH_I16 = 6,
    DIALMOTH_I32 = 7,
    DIALMOTH_I64 = 8,
    DIALMOTH_FLOAT = 9,
    DIALMOTH_DOUBLE = 10,
    DIALMOTH_CHARACTER = 11 /* from 2.1 on */
};

/* Kinds of an element, and what its bits are. */
enum dialmoth_kind {
    DIALMOTH_KIND_UNSIGNED = 1, /* the number */
    DIALMOTH_KIND_SIGNED = 2,   /* the number in two's complement, 64 bits */
    DIALMOTH_KIND_SINGLE = 3,   /* the float's 32 bits, zeros above */
    DIALMOTH_KIND_DOUBLE = 4    /* the double's 64 bits */
};

/* Places in the out of dialmoth_entry and dialmoth_lookup, and of a reader's entry,
 * lookup, find and newest. */
enum dialmoth_field {
    DIALMOTH_ENTRY_FRAME,
    DIALMOTH_ENTRY_N,
    DIALMOTH_ENTRY_LOCATION,
    DIALMOTH_ENTRY_M,
    DIALMOTH_ENTRY_ID,
    DIALMOTH_ENTRY_TYPE,
    DIALMOTH_ENTRY_FLAGS,
    DIALMOTH_ENTRY_FIELDS
};

/* Opens the image. out: frames, names, entries.
 * The number of frames is the last entry's frame plus 1, or 0 without entries.
 * A frame may be empty, at the start or anywhere: two entries can make
 * 4,294,967,295 frames, so go from entry to entry and not from frame to frame. */
uint64_t dialmoth_open(const uint8_t *image, size_t image_length,
                       uint64_t out[3]);

/* The n-th name, from 0; n is its id. out: its start in the image and its
 * length, without the closing zero. */
uint64_t dialmoth_name(const uint8_t *image, size_t image_length, uint64_t n,
                       uint64_t out[2]);

/* The n-th entry of the index, from 0. They stand by (frame, id), in 1.0 by frame
 * and in it in the order of writing.
 * out: frame, N, location, M, id, type, flags. */
uint64_t dialmoth_entry(const uint8_t *image, size_t image_length, uint64_t n,
                        uint64_t out[7]);

/* The entry of a name in a frame. DIALMOTH_NO_CHUNK says that the frame has no
 * such chunk: no value stands for that, not even 0. An empty frame has none.
 * out: as dialmoth_entry. */
uint64_t dialmoth_lookup(const uint8_t *image, size_t image_length,
                         uint64_t frame, const uint8_t *name,
                         size_t name_length, uint64_t out[7]);

/* The bytes of a chunk. Numbers as dialmoth_lookup.
 * out: their start in the image and their length, which may be 0. */
uint64_t dialmoth_chunk(const uint8_t *image, size_t image_length,
                        uint64_t frame, const uint8_t *name,
                        size_t name_length, uint64_t out[2]);

/* Element k of a chunk, from 0, M the fast index: k = i * M + j for i below N
 * and j below M.
 * out: its kind (enum dialmoth_kind; a character is unsigned) and its exact
 * bits, those of a NaN too. */
uint64_t dialmoth_element(const uint8_t *image, size_t image_length,
                          uint64_t frame, const uint8_t *name,
                          size_t name_length, uint64_t k, uint64_t out[2]);

/* How many entries of the index the search of a lookup probes. It is made once
 * the image is open and the name's id is known, by chunk and element too, and
 * halves the index; a probe reads one entry. Numbers as dialmoth_lookup.
 * out, set at every call: the probes; an entry probed twice counts twice. Among
 * n entries they are at most one more than n has binary digits, 17 for 40,000;
 * in 1.0, where the search goes through the frame, as many more as that has entries.
 * With DIALMOTH_NO_CHUNK the search was made and counted; with any other refusal
 * there was none, and out is 0. */
uint64_t dialmoth_probes(const uint8_t *image, size_t image_length,
                         uint64_t frame, const uint8_t *name,
                         size_t name_length, uint64_t out[1]);

/* Writes a chunk of floats or doubles as an NChilada file: one property, its N values
 * numbers where M is 1 and vectors where M is 3. Numbers: as dialmoth_lookup, then 60
 * to 64 in this order. A refusal writes nothing.
 * file has exactly 28 + (2 + N) * M * size bytes, N, M and the type as dialmoth_lookup
 * answers them, and size 4 for floats, 8 for doubles. All is big-endian (XDR), and
 * nothing lies between:
 *   u32 1062053; double time; u32 high word of N; u32 low word of N; u32 M;
 *   u32 code, which is the type, 9 or 10;
 *   the smallest value of each column, then the largest of each, M and M elements;
 *   the N * M elements, in the chunk's order.
 * Time is the frame's number, as a double, times step, the seconds from a frame to the
 * next: one multiplication, rounded once. A step may be 0 or negative; in frame 0 a
 * negative one makes the time -0.0. One that is not finite is refused there too.
 * The extremes of a column are elements of it. Of equal values the first is kept, and
 * -0.0 and 0.0 are equal: a zero has the sign of the first one. Infinities are values.
 * A NaN, quiet or signalling, of either sign, is refused with DIALMOTH_NAN_IN_CHUNK.
 * No append brings one into an image (DIALMOTH_NAN_IN_SHEET), but one that another
 * program wrote, or this library before it looked, may hold some.
 * It opens the image once and goes over the chunk three times: for NaNs, for the
 * extremes, and to write. It alone of all calls computes with floats, and needs the
 * mode that a program starts in: rounding to nearest, subnormal numbers kept (a
 * program linked with -ffast-math may not keep them), no exception trapped. */
uint64_t dialmoth_nchilada(const uint8_t *image, size_t image_length,
                           uint64_t frame, const uint8_t *name,
                           size_t name_length, double step, uint8_t *file,
                           size_t file_length);

/* Writes a chunk as a RawArray file. Numbers: as dialmoth_lookup, then 77. A refusal
 * writes nothing.
 * file has exactly 64 + N * M * size bytes, N, M and the type as dialmoth_lookup
 * answers them, and size the bytes of an element. All numbers are u64, little-endian:
 *   the bytes "rawarray"; flags 0;
 *   type: 2 for unsigned numbers and characters, 1 for signed ones, 3 for floats and
 *   doubles; the bytes of an element; the data's length in bytes;
 *   2 dimensions: M, then N, for the first is the fast one;
 *   the chunk's bytes, as they are.
 * Nothing in the file tells a character from a u8. */
uint64_t dialmoth_rawarray_write(const uint8_t *image, size_t image_length,
                                 uint64_t frame, const uint8_t *name,
                                 size_t name_length, uint8_t *file,
                                 size_t file_length);

/* Reads a RawArray file back into the sheet of one row, under a name; dialmoth_append
 * and dialmoth_begin take that sheet as it is. Numbers: 70 to 76, 78 and 79, in this
 * order. A refusal writes nothing.
 * sheet has exactly 20 + name_length + L bytes, L the data's length, which the file
 * has as a u64 at byte 32; it is never more than the file's length in a file that
 * passes 75.
 * A file of 2 dimensions has M, then N; one of 1 has N, and M is 1. Types and widths
 * become u8 to u64, i8 to i64, float and double; what has no such type, complex
 * numbers, floats of two bytes, structures, is refused with DIALMOTH_RAWARRAY_TYPE.
 * What follows the data is ignored. A file may be of any length.
 * What dialmoth_rawarray_write wrote comes back with its N, M, type and bytes; a
 * character comes back as u8, so that the sheet is good for images of 2.0 too.
 * The sheet passes 22 to 27 of an append to any image. Floats are not tested here: a
 * sheet that holds a NaN is refused by the append, with DIALMOTH_NAN_IN_SHEET. */
uint64_t dialmoth_rawarray_read(const uint8_t *file, size_t file_length,
                                const uint8_t *name, size_t name_length,
                                uint8_t *sheet, size_t sheet_length);

/* A reader, for a caller that asks much of one image: dialmoth_reader_open opens it
 * once, and the eight calls behind it answer from reader and image, and do not test
 * the image again. On the image that was opened they answer as the calls without a
 * reader.
 *
 * A reader is eight plain words without a pointer. Copy it, keep it, hand it to
 * another thread, write it to a file: it reads the same image, or a copy of its
 * bytes, wherever that lies by then.
 * It answers as of its moment, for ever. Whatever appends are made later, whole or
 * stopped or in turns, refused ones too, each call with this reader answers exactly
 * as it did before them: numbers, entries, names, places, and the bytes in the places
 * of chunks. A later frame is for a reader that is opened later, and half a frame is
 * for none.
 * Outside that promise is every other writer on the slice: a create, or stores of the
 * program's own. The calls are then still safe and say what the words and the bytes
 * by then say, as below, which may be nothing that was ever recorded. Reading while
 * another thread stores is outside it too: read between appends, or between two
 * turns.
 *
 * Any words are safe as a reader, with an image of any length and content: no byte
 * outside of the image is touched, and the answer is 0 or one of the numbers that the
 * call names. The calls read as many slots from the index on as there are entries,
 * whatever these hold, and as many names at most as the reader has, in the name
 * list's bytes: those before the first that is empty or not closed there (in 1.0 one
 * to a segment, all 64 bytes of it where it has no zero).
 * DIALMOTH_NOT_FITTING says that the image has over 1,073,741,824 bytes, that the
 * version is none that opens or the names are over 1,024, or that the entries or the
 * name list end beyond the image. After a lookup it says that the entry found has a
 * type not known in the reader's version, or a chunk that ends beyond the image. It
 * says no more than that: magic, header, order and the rest that opening tests are
 * not looked at, and a reader of another image that happens to fit is not refused. */
enum dialmoth_reader {
    DIALMOTH_READER_FRAMES, /* the first three are as the out of dialmoth_open */
    DIALMOTH_READER_NAMES,
    DIALMOTH_READER_ENTRIES,
    DIALMOTH_READER_INDEX,    /* where the entries start, 32 bytes each */
    DIALMOTH_READER_NAMELIST, /* where the names start */
    DIALMOTH_READER_SIZE,     /* their bytes, closing zeros too; in 1.0 64 a name */
    DIALMOTH_READER_VERSION,  /* 0x00010000, 0x00020000 or 0x00020001 */
    DIALMOTH_READER_WORDS = 8 /* the last one is 0, and no call looks at it */
};

/* Opens the image and sets the reader, or leaves it as it was: numbers 1 to 18, as
 * dialmoth_open. It takes the time of an opening, over 100 microseconds with 40,000
 * entries; the calls below do not. */
uint64_t dialmoth_reader_open(const uint8_t *image, size_t image_length,
                              uint64_t reader[DIALMOTH_READER_WORDS]);

/* The n-th name, found by going through those before it. Numbers: 33, 44.
 * out: as dialmoth_name. */
uint64_t dialmoth_reader_name(const uint64_t reader[DIALMOTH_READER_WORDS],
                              const uint8_t *image, size_t image_length,
                              uint64_t n, uint64_t out[2]);

/* The n-th entry, with no search: go from 0 up to the reader's entries for all chunks
 * of an image. Numbers: 33, 44. out: as dialmoth_entry.
 * Of an image that opened, and has had appends alone since, each one's chunk lies in
 * the image, from its location on. Of other words or bytes test that, and the type,
 * before the chunk is read, or ask dialmoth_reader_chunk. */
uint64_t dialmoth_reader_entry(const uint64_t reader[DIALMOTH_READER_WORDS],
                               const uint8_t *image, size_t image_length,
                               uint64_t n, uint64_t out[7]);

/* The entry of a name in a frame. Numbers: 33, 40, 41, 42, the last as of
 * dialmoth_lookup: no value stands for it. out: as dialmoth_entry.
 * It goes through the names each time: where one is asked for often, ask for its id
 * once, then find and newest by that. */
uint64_t dialmoth_reader_lookup(const uint64_t reader[DIALMOTH_READER_WORDS],
                                const uint8_t *image, size_t image_length,
                                uint64_t frame, const uint8_t *name,
                                size_t name_length, uint64_t out[7]);

/* The bytes of a chunk. Numbers: 33, 40, 41, 42, then 33 of the entry found.
 * out: as dialmoth_chunk. */
uint64_t dialmoth_reader_chunk(const uint64_t reader[DIALMOTH_READER_WORDS],
                               const uint8_t *image, size_t image_length,
                               uint64_t frame, const uint8_t *name,
                               size_t name_length, uint64_t out[2]);

/* Element k of a chunk. Numbers: as dialmoth_reader_chunk, then 43.
 * out: as dialmoth_element. */
uint64_t dialmoth_reader_element(const uint64_t reader[DIALMOTH_READER_WORDS],
                                 const uint8_t *image, size_t image_length,
                                 uint64_t frame, const uint8_t *name,
                                 size_t name_length, uint64_t k,
                                 uint64_t out[2]);

/* The id of a name, the first one's of equal names. Numbers: 33, 41. out: the id.
 * Appends leave a listed name its id, so one asked for once is good for every later
 * reader of the image. */
uint64_t dialmoth_reader_id(const uint64_t reader[DIALMOTH_READER_WORDS],
                            const uint8_t *image, size_t image_length,
                            const uint8_t *name, size_t name_length,
                            uint64_t out[1]);

/* The entry of an id in a frame, as dialmoth_reader_lookup by the id's name. Numbers:
 * 33, 40, 41 where the id is not below the number of names, 42.
 * out: as dialmoth_entry. */
uint64_t dialmoth_reader_find(const uint64_t reader[DIALMOTH_READER_WORDS],
                              const uint8_t *image, size_t image_length,
                              uint64_t frame, uint64_t id, uint64_t out[7]);

/* The entry of an id in the newest frame at or below `frame` that has one. Numbers:
 * 33, 40, 41 as dialmoth_reader_find, and 42 where no frame up to this one has a
 * chunk of the id: no value stands for that. out: as dialmoth_entry; its first is the
 * frame.
 * It goes back entry by entry, so it takes the longer the older that frame is. */
uint64_t dialmoth_reader_newest(const uint64_t reader[DIALMOTH_READER_WORDS],
                                const uint8_t *image, size_t image_length,
                                uint64_t frame, uint64_t id, uint64_t out[7]);

/* Makes a fresh image of version 2.1 with no frame. 0 slots stand for 512 (once
 * for 64), 0 segments for 16. The index lies at 256, the names at 256 + 32 * slots
 * rounded up to a multiple of 64, and 64 * segments bytes more are needed: 17,664
 * with both 0. Bytes between the two and behind them stay as they are. The texts
 * have at most 63 bytes and need no closing zero.
 * Every append clears all slots that are free, 32 bytes each. With 512 that is up
 * to 16 KiB an append until the index first moves; after a move it is up to half
 * of the new block, and up to 2 KiB more if the append that moved it was stopped.
 * On flash ask for few slots and segments: an append that needs more moves them by
 * itself to a block at least twice as long. */
uint64_t dialmoth_create(uint8_t *image, size_t image_length,
                         const uint8_t *application, size_t application_length,
                         const uint8_t *schema, size_t schema_length,
                         uint32_t schema_version, uint64_t slots,
                         uint64_t segments);

/* Appends the sheet's chunks as one new frame, by 8-byte stores on multiples of
 * 8 in a fixed order, and stops after `limit` of them; UINT64_MAX makes all.
 * Its number is the number of frames so far; empty frames stay empty.
 * The frame is there once the last store is made, and not before: after a stop
 * every older frame reads as it did, and the same append may be made again. (A
 * block that was moved before the stop stays moved, so it may take more room.)
 * It is dialmoth_begin and one dialmoth_turn joined. Where there is no time for an
 * opening and all stores at once, call these two, below.
 * Every chunk of the new frame, an empty one too, and every block that the append
 * moves starts at a multiple of 64, counted from the image's start: lend an image
 * that itself lies at such an address where the memory wants them there. Bytes
 * between are not stored, so there are no more stores, but a chunk of 1 byte takes
 * 64 of the image. Chunks and blocks that lie elsewhere, as the real library puts
 * them and this one once did, stay there; only blocks off multiples of 8 are
 * refused (DIALMOTH_UNALIGNED_BLOCK).
 * The image keeps its version: one of 2.0 refuses a row of DIALMOTH_CHARACTER
 * with DIALMOTH_BAD_ROW, one of 2.1 takes it, and one of 1.0 takes no append at all:
 * DIALMOTH_OLD_IMAGE, whatever the sheet and the limit.
 * A NaN among the elements of a row of floats or doubles, quiet or signalling,
 * of either sign, is refused with DIALMOTH_NAN_IN_SHEET, whatever the limit.
 * Infinities pass, and rows of other types are not looked at. An image that
 * holds NaNs already reads as before and takes appends, but such a chunk of it
 * can be appended again only once its NaNs are gone.
 * A stop is this limit, seen as the call ends: within a call the compiler may
 * join or reorder stores, so a cut of power inside it is not covered.
 * out, three words: stores done, stores of the whole append, and the listed entries
 * that the whole append copies where it moves the index, whatever the limit; 0 where
 * the index stays. The frame is there exactly when the answer is 0 and the first two
 * are equal. (There were two words once: a caller made for those must be compiled
 * anew with three, for the third would be written past its array.)
 * Over whole appends the entries copied add up to at most the slots that the index
 * has gained, and once it has moved to fewer than twice the entries listed at the
 * end. An append that was stopped and is made again may copy them again.
 * The first stores of every append clear all free slots, 4 stores each, and the
 * rest of the name block, 8 a segment. So 1,440 frames of 4 rows, 18,720 bytes of
 * data, are 8,481,720 stores or 68 MB in one image of 64 slots and 16 segments at
 * first, and 69 MB from 512 slots; in 24 images of 60 frames they are 4.2 MB from
 * 64 slots and 20 MB from 512.
 *
 * A sheet is a table, then the bodies, numbers little-endian, nothing between:
 *   u32 count, 1 to 64;
 *   each row: u64 N, u32 M, u8 type, u8 name length, two zero bytes;
 *   each row: its name without closing zero, then its N * M elements. */
uint64_t dialmoth_append(uint8_t *image, size_t image_length,
                         const uint8_t *sheet, size_t sheet_length,
                         uint64_t limit, uint64_t out[3]);

/* An append in turns, for a caller that has 200 microseconds at a time: begin, then
 * a turn in each free moment, until as many stores are made as begin has said.
 *
 * The premise of both calls: from begin to the last turn nothing else, no other
 * append either, writes image or sheet; pass each turn the image and the sheet of
 * the begin, and the state that the last call gave back. Reading between turns is
 * free, and so are calls that store nothing.
 * Under it turns leave every byte as one dialmoth_append does whose limit is the sum
 * of theirs, be it above UINT64_MAX, and make as many stores. So between two turns
 * the image is as after a stopped append: all older frames read as they did, and
 * after a cut of power there, with the state lost, the append is begun anew. A cut
 * inside a turn is not covered, as it is not inside an append.
 *
 * A state is plain words without a pointer, 3,248 bytes. It may be kept, copied and
 * handed to another thread, but it is good for this image and sheet alone, and what
 * its words say is not told. */
#define DIALMOTH_STATE_WORDS 406

/* Begins: tests all that dialmoth_append tests, with its numbers in its order, and
 * makes no store. It opens the image and takes the time of that, however few stores
 * follow: over 100 microseconds with 40,000 entries.
 * state, set at every call: the append before its first store; all zeros when
 * refused, and every turn refuses these.
 * out, set at every call: stores of the whole append, and the listed entries that it
 * copies where it moves the index; two zeros when refused. */
uint64_t dialmoth_begin(const uint8_t *image, size_t image_length,
                        const uint8_t *sheet, size_t sheet_length,
                        uint64_t state[DIALMOTH_STATE_WORDS], uint64_t out[2]);

/* Makes the next stores of the append that the state is of, `limit` of them or all
 * that are left where these are fewer, and sets the state for the turn after it.
 * The image is not opened: beside its stores a turn takes a time that grows with the
 * sheet's rows and not with the image. Of one store, on one machine, some 0.2
 * microseconds were seen with three rows and up to 2 with 64. A store moves or clears
 * eight bytes; take a limit that the memory can do in the time there is.
 * out, set at every call: stores that this turn made. The frame is there once these
 * counts add up to the whole that begin has said, and not before. A turn after that
 * makes none, and is not refused for it.
 * The only refusal is DIALMOTH_NOT_EXPECTED, exactly when the state is a refused
 * begin's, or the length of the image or of the sheet is not that of the begin, or
 * one of the four header words at 8, 16, 24 and 32, places and sizes of index and
 * names, is not what the append's own stores have left so far; with any limit, with
 * 0 too, and after the last store too. Image and state then stay as they are, and
 * out is 0. Nothing else is compared, magic and versions neither.
 * So it does not see all that breaks the premise: another whole append that moves no
 * block leaves these words as they were, and a turn of the older state stores over
 * that frame.
 * A turn is safe without the premise. Any words may be passed as a state: no byte
 * outside of image and sheet is touched, and the answer is 0 or this refusal. With a
 * state that begin or turn gave, whatever image and sheet hold by now, stores go only
 * to words of that append's own, their places fixed at begin; but what is stored
 * there may be anything. */
uint64_t dialmoth_turn(uint64_t state[DIALMOTH_STATE_WORDS], uint8_t *image,
                       size_t image_length, const uint8_t *sheet,
                       size_t sheet_length, uint64_t limit, uint64_t out[1]);

#ifdef __cplusplus
}
#endif

#endif
