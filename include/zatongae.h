/* Zatongae's C interface: a sheet of filter children to a list of filter primitives.
 *
 * Build and link, from the top of the repository:
 *
 *     tools/archive
 *     cc -Iinclude examples/convert.c target/staticlib/libzatongae.a -o convert
 *
 * The archive is for x86-64 Linux. It needs memset of the C library and nothing else.
 *
 * What is said of a function's answer and output below is proved of it, for every input, except where it says "measured". The proof is about calls that
 * keep what a caller owes:
 *
 *   - each length is true: so many bytes can be read, or written, at the pointer. Where a length is 0 the pointer is not used and may be null;
 *   - the two buffers do not overlap, and no other thread writes to either during the call;
 *   - the processor computes as IEEE 754 has it, rounding to nearest and keeping subnormal numbers. That is how a process starts; a program that was
 *     linked with -ffast-math, or that has called fesetround, may have changed it.
 *
 * The bytes may be any bytes: every sheet gets an answer. Every call ends. A call keeps no state and no pointer, allocates nothing, reads and
 * writes nothing but the two buffers and its own stack, and sets no errno; calls in several threads do not disturb each other. Both buffers stay the
 * caller's. */
#ifndef ZATONGAE_H
#define ZATONGAE_H

#include <stddef.h>
#include <stdint.h>

#ifdef __cplusplus
extern "C" {
#endif

/* The most bytes that a sheet may have. */
#define ZATONGAE_SHEET_BYTES 65536

/* No list is longer (theorem `accepted_fits` of crates/list_bounds), so with an output of this size 9 is never given. */
#define ZATONGAE_LIST_BYTES 589824

/* The numbers of an answer. They are tested in this order, and the first whose cause holds is given:
 *
 *   - 1, 2, 10, 11, 3, 4, 5, each over the whole sheet, used or not;
 *   - 6 for placing the filter rectangle;
 *   - 8 where the primitives are in box units and there is no box. No child is looked at then;
 *   - the first 6 or 7 that a child meets, in child order, up to the child that ends the chain;
 *   - 8 where no child makes a primitive;
 *   - 9. */
enum zatongae_number {
    ZATONGAE_LIST = 0,           /* a list is given */
    ZATONGAE_TOO_LARGE = 1,      /* sheet over 65,536 bytes, or node count over 512 (a sheet under 74 bytes is 2) */
    ZATONGAE_MALFORMED = 2,      /* bytes that are not in the sheet's layout */
    ZATONGAE_BAD_NUMBER = 3,     /* a number that is not finite, as given or narrowed to f32; a box that is no rectangle; a view box size or dpi not above 0;
                                    a view box size equal to the largest f32; a font size below 0; a flood-opacity outside 0..1, or -0 */
    ZATONGAE_IMAGE = 4,          /* feImage as a child of the filter */
    ZATONGAE_NO_REGION = 5,      /* no filter region: not a rectangle, or in box units without a box */
    ZATONGAE_NOT_PLACED = 6,     /* placing the filter rectangle makes no rectangle; a radius product is not finite; or, for feDisplacementMap in box units,
                                    box width + height is not finite. A child whose subregion is no rectangle ends the list before it, with no refusal */
    ZATONGAE_BASE_FREQUENCY = 7, /* a base frequency positive in sign but not finite. No call answers it, since 3 comes before: that is proved */
    ZATONGAE_NO_PRIMITIVE = 8,   /* no child makes a primitive, or primitives in box units have no box */
    ZATONGAE_NO_ROOM = 9,        /* the output is shorter than the list */
    ZATONGAE_OUTSIDE_GRAMMAR = 10, /* a typed list (kind 7) with an item that is no number of SVG 1.1's grammar, with items that are not parted by white space
                                      or one comma, with a comma at either end, or of over 1,024 items */
    ZATONGAE_OUTSIDE_LIMITS = 11   /* an item of a typed list with more than 15 digits, leading zeros not counted, or a power of ten outside -22 to 22 */
};

/* What a call answers: ZATONGAE_LIST and the list's length, or the number of the refusal and length 0. */
struct zatongae_answer {
    uint32_t number;
    size_t length;
};

/* Converts the sheet of sheet_len bytes at sheet, and writes its list to the out_len bytes at out.
 *
 * number 0: the first length bytes of out are the list, and the rest of out is as it was. A reader of these bytes finds one record for each child of the
 * filter that counts, in order, and nothing behind the last. Each input of a record is SourceGraphic, SourceAlpha, or the result of an earlier record: the
 * one that the filter's own rule means, found by taking the newest earlier record of that name. No 32-bit pattern in the place of a number is a NaN's; an
 * infinity may stand there. Each kernel, divisor, radius, deviation, specular exponent and opacity is in its range.
 *
 * Any other number: length is 0 and every byte of out is as it was.
 *
 * Stack: at most 9,016 bytes, measured on 7,035 sheets, every kind of child and every number but 7 among them. */
struct zatongae_answer zatongae_convert(const uint8_t *sheet, size_t sheet_len, uint8_t *out, size_t out_len);

/* The bits of an f64 to the bits of the nearest f32, ties to even; the way in which every f64 of a sheet is taken. Too large a number gives the infinity of
 * its sign, and any NaN 0x7fc00000. Stack: 8 bytes, measured. */
uint32_t zatongae_narrow(uint64_t bits);

/* Converts the record of one shorthand filter function (grayscale, sepia, saturate, hue-rotate, invert, opacity, brightness, contrast, blur, drop-shadow),
 * record_len bytes at record, and writes its kind to the out_len bytes at out: one kind's place and fields as a list has them, without count, pair,
 * rectangle and name. At most 85 bytes are written.
 *
 * number 0: the first length bytes of out are the kind, and the rest of out is as it was. No number in it is NaN; a deviation and a saturation are finite
 * and not below 0, an opacity is 0 to 1.
 *
 * 2: bytes that are not in the record's layout. 3: a number that is not finite, as given or narrowed to f32; a view box width or dpi not above 0; a view box
 * width equal to the largest f32; a font size below 0. 9: the output is shorter than the kind. They are tested in this order; length is 0 then and every
 * byte of out is as it was. No other number is given. */
struct zatongae_answer zatongae_convert_function(const uint8_t *record, size_t record_len, uint8_t *out, size_t out_len);

#ifdef __cplusplus
}
#endif

#endif
