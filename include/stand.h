/* Plane geometry and the cut for the copy stand: nearest pixels, labels, squares,
 * square distance, filling of transparent pixels, ground, growth, a look at growth's
 * coming pass, and the cut that turns a picture and five settings into mask, weights and
 * crop box. Where the card's colour is known, ground and cut can be given it.
 *
 * Link with libstand.a, which host/prove proves and puts into target/staticlib/:
 *
 *     cc program.c -I include target/staticlib/libstand.a -o program
 *
 * docs/RULES.md has every rule in full; R1 and so on are its numbers.
 *
 * Planes. A plane has h rows and w columns, each from 1 to STAND_MOST_SIDE.
 * Pixel (y, x) is element y * w + x. In a mask a byte 0 is off and any other
 * byte is on; the masks written here hold 0 and 1 only. "Within k" means at most
 * k rows and at most k columns away.
 *
 * Colours. A colour is three double, each from 0 to 1; -0 counts as 0. Channel c
 * of pixel i is element 3 * i + c.
 *
 * The card's colour. Where it is given, it is a text of six hexadecimal digits, as
 * F4F1E8: two for red, two for green, two for blue, letters of either case, no # and no
 * spaces. It is lent as a pointer and a length, and nothing marks its end: a NUL that is
 * counted in the length is a byte of the text, and makes it wrong (R81).
 *
 * Buffers. The caller lends every buffer as a pointer and its length, counted in
 * elements and not in bytes (R45, R46). There are three kinds:
 *   inputs        are read only; the text of the card's colour is one;
 *   outputs       have exactly the length of their plane, and every element of
 *                 them is written;
 *   work buffers  hold at least stand_work_len(h, w) elements. What they hold
 *                 before the call has no effect on answers and outputs, and after an
 *                 accepted call it is not defined, but for what stand_squares says.
 * Nothing is allocated and nothing is kept after the call returns. Every call runs
 * in a thread that has 64 KiB of stack, whatever the sides are.
 *
 * What the caller sees to: every pointer is aligned for its type and is not
 * NULL, even where the length is 0; length elements can be read there, and in
 * outputs and work buffers also written; an output or a work buffer overlaps no
 * other buffer of the same call; no other thread writes any of them, nor reads
 * the outputs and work buffers, before the call returns; a bool that is lent is a
 * byte 0 or 1 and no other.
 *
 * Floating point. The calls that read double (ground, growth, next pass, cut) expect
 * the environment that a program starts with: rounding to nearest, and subnormal
 * numbers neither flushed to zero nor read as zero (on x86-64 FTZ and DAZ of MXCSR
 * are off). With either changed the answers are not those promised here: a colour of
 * -5e-324, say, would be accepted.
 *
 * Answers. Each call answers STAND_ACCEPTED or the number of the refusal. Where
 * several things are wrong the first of them is answered, in the order 1, 2, 3, 11, 4,
 * 5, 6 (R54 to R57, R82). After a refusal every buffer that was lent, work buffers
 * included, is as it was. Sides are judged first, then lengths, and nothing that is lent
 * is read before both are right; a text whose length is not 6 is not read at all.
 */
#ifndef STAND_H
#define STAND_H

#include <stdbool.h>
#include <stddef.h>
#include <stdint.h>

#ifdef __cplusplus
extern "C" {
#endif

/* The version of this header, and of the crate in host/. */
#define STAND_VERSION "0.3.0"
#define STAND_VERSION_MAJOR 0
#define STAND_VERSION_MINOR 3
#define STAND_VERSION_PATCH 0

/* The longest side of a plane, in pixels (R1). */
#define STAND_MOST_SIDE 4096

/* Done: every output is complete. */
#define STAND_ACCEPTED 0
/* h or w is 0 or more than STAND_MOST_SIDE (R44). */
#define STAND_SIDE 1
/* The length of an input is not that of its plane: h * w, for colours 3 * h * w
 * (R45). The text of the card's colour has no plane; its length is a matter of 11. */
#define STAND_INPUT_LENGTH 2
/* The length of an output is not that of its plane, or a work buffer holds fewer
 * than stand_work_len(h, w) elements (R46). */
#define STAND_ROOM 3
/* A colour, or the reference that is given, is below 0, above 1 or no number
 * (R47). */
#define STAND_COLOUR 4
/* The tolerance is infinite or no number (R48). */
#define STAND_TOLERANCE 5
/* No alpha reaches the threshold: the mask would be empty (R49). */
#define STAND_ALPHA 6
/* The text of the card's colour is not six hexadecimal digits; an empty text is not,
 * either. It is tested after 3 and before 4 (R82). */
#define STAND_CARD_COLOUR 11

/* How many elements a work buffer needs. It is 0 where a side is 0 or more than
 * STAND_MOST_SIDE: every call with such sides answers STAND_SIDE and uses no
 * buffer. */
static inline size_t stand_work_len(size_t h, size_t w)
{
    if (h < 1 || h > STAND_MOST_SIDE || w < 1 || w > STAND_MOST_SIDE) return 0;
    return 2 * h * w + 2 * (h + w) + 16;
}

/* Nearest (R10 to R12): for each pixel the row and the column of the on-pixel
 * at the least dy * dy + dx * dx; among equals the one in the least column, and within
 * that column the least row. An on-pixel gets itself. Where no pixel is on, every
 * pixel gets row -1 and column 0.
 *
 *   mask   input, h * w bytes
 *   work   work buffer
 *   rows   output, h * w
 *   cols   output, h * w
 */
uint32_t stand_nearest(
    const uint8_t *mask, size_t mask_len,
    size_t h, size_t w,
    uint32_t *work, size_t work_len,
    int32_t *rows, size_t rows_len,
    int32_t *cols, size_t cols_len);

/* What stand_labels answers. */
typedef struct {
    uint32_t refusal; /* STAND_ACCEPTED or the number of the refusal */
    uint32_t parts;   /* how many parts the mask has; 0 when refused */
} StandLabels;

/* Labels (R6, R7): on-pixels that are joined by steps up, down, left or right form a
 * part. Each pixel gets the number of its part, from 1 on in the order in which a part
 * is first met, row by row from the left; a pixel that is off gets 0.
 *
 *   mask     input, h * w bytes
 *   parents  work buffer
 *   labels   output, h * w
 */
StandLabels stand_labels(
    const uint8_t *mask, size_t mask_len,
    size_t h, size_t w,
    uint32_t *parents, size_t parents_len,
    uint32_t *labels, size_t labels_len);

/* Squares (R8, R9): a pixel of the output is 1 exactly when an on-pixel of the mask
 * is at most k rows and at most k columns away, else 0. k is the number of iterations,
 * but never more than the larger side; 0 iterations mean the larger side. An
 * empty mask stays empty.
 *
 * After the call each byte of the work buffer, also beyond h * w, is 0, 1 or what it was
 * before; after a refusal it is what it was.
 *
 *   mask   input, h * w bytes
 *   work   work buffer
 *   out    output, h * w bytes, each 0 or 1
 */
uint32_t stand_squares(
    const uint8_t *mask, size_t mask_len,
    size_t h, size_t w,
    uint64_t iterations,
    uint8_t *work, size_t work_len,
    uint8_t *out, size_t out_len);

/* Square distance (R13): dy * dy + dx * dx from each pixel to its nearest on-pixel,
 * 0 at an on-pixel. Where no pixel is on, pixel (y, x) gets (y + 1) * (y + 1) + x * x,
 * which is its square distance from row -1, column 0.
 *
 *   mask   input, h * w bytes
 *   work   work buffer
 *   out    output, h * w
 */
uint32_t stand_distance(
    const uint8_t *mask, size_t mask_len,
    size_t h, size_t w,
    uint32_t *work, size_t work_len,
    uint32_t *out, size_t out_len);

/* Fill (R14): each pixel takes the colour of its nearest on-pixel, bit for bit; an
 * on-pixel keeps its own. Where no pixel is on, every pixel takes the colour of
 * the first pixel of the last row. A colour here is three 64-bit patterns (of
 * double, say): any bits are taken, and only moved.
 *
 *   colours  input, 3 * h * w
 *   mask     input, h * w bytes
 *   work     work buffer
 *   out      output, 3 * h * w
 */
uint32_t stand_fill(
    const uint64_t *colours, size_t colours_len,
    const uint8_t *mask, size_t mask_len,
    size_t h, size_t w,
    uint32_t *work, size_t work_len,
    uint64_t *out, size_t out_len);

/* A colour. */
typedef struct {
    double r, g, b;
} StandRgb;

/* What stand_ground and stand_ground_with_colour answer. */
typedef struct {
    uint32_t refusal;   /* STAND_ACCEPTED or the number of the refusal */
    bool found;         /* whether the ground was found; false when refused */
    StandRgb reference; /* the border's colour, or the one that is given, a zero as +0;
                         * all +0 when not found */
} StandGround;

/* Ground (R15 to R22): the plain card around the object.
 *
 * The border list is row 0, row h - 1, then column 0 and then column w - 1 of rows
 * 1 to h - 2, repeats included. The reference is, for each channel, half the sum
 * of the two middle values of the list. The difference of two colours is the
 * largest of the three absolute differences of their channels; a pixel is close
 * when its difference from the reference is at most the tolerance. The ground is
 * the close pixels that are joined to a close pixel of the border by steps up,
 * down, left or right over close pixels. It is found when at least nine tenths of
 * the border list are close and some pixel is not ground. Where it is not found,
 * the output is all 0. A negative tolerance is accepted: nothing is close then.
 *
 *   colours  input, 3 * h * w
 *   work     work buffer
 *   out      output, h * w bytes, 1 on the ground and 0 elsewhere
 */
StandGround stand_ground(
    const double *colours, size_t colours_len,
    size_t h, size_t w,
    double tolerance,
    uint32_t *work, size_t work_len,
    uint8_t *out, size_t out_len);

/* Ground on card of a known colour (R83): as stand_ground, but the reference is the
 * colour that the text gives, its three bytes divided by 255, and not the border's. At
 * least nine tenths of the border list must be close to it; where they are not, the
 * ground is not found, and the border's own colour is not tried.
 *
 * Refusals 1, 2, 3, 11, 4 and 5 are tested in this order.
 *
 *   colours  input, 3 * h * w
 *   text     input, the six digits of the card's colour
 *   work     work buffer
 *   out      output, h * w bytes, 1 on the ground and 0 elsewhere
 */
StandGround stand_ground_with_colour(
    const double *colours, size_t colours_len,
    size_t h, size_t w,
    const uint8_t *text, size_t text_len,
    double tolerance,
    uint32_t *work, size_t work_len,
    uint8_t *out, size_t out_len);

/* Growth (R23 to R29): passes that take the anti-aliased rim of the object into the
 * background.
 *
 * A pass works on the background that it starts with. Edge is what is not
 * background and within 1 of it; shallow is neither background nor edge; deep is
 * not within 4 of the background. Where there is no edge or no shallow pixel,
 * growth ends. An edge pixel's body colour is that of its nearest deep pixel, if
 * there is one and its dy * dy + dx * dx is at most 36, else that of its nearest
 * shallow pixel; nearest is as stand_nearest gives it. With full the difference of
 * body colour and reference, and mixed that of the pixel itself, the pixel joins
 * the background when full > 1e-6 and 2 * mixed < full. All joins of a pass take
 * effect together; a pass without a join ends growth. At most `passes` passes run,
 * none where the number is negative.
 *
 *   colours               input, 3 * h * w
 *   background            input, h * w bytes
 *   nearest               work buffer
 *   shallow, deep, marks  work buffers
 *   out                   output, h * w bytes, 1 on the background and 0 elsewhere
 */
uint32_t stand_growth(
    const double *colours, size_t colours_len,
    const uint8_t *background, size_t background_len,
    size_t h, size_t w,
    StandRgb reference,
    int64_t passes,
    uint32_t *nearest, size_t nearest_len,
    uint8_t *shallow, size_t shallow_len,
    uint8_t *deep, size_t deep_len,
    uint8_t *marks, size_t marks_len,
    uint8_t *out, size_t out_len);

/* What stand_next_pass answers. */
typedef struct {
    uint32_t refusal; /* STAND_ACCEPTED or the number of the refusal */
    uint64_t joins;   /* how many pixels would join; 0 when refused */
} StandNextPass;

/* A look at the coming pass (R89 to R92): the background that one more pass of growth
 * would make. The output is what stand_growth writes with one pass, and the number of
 * joins is that of the pixels that are on in the output and off in the background. It is
 * 0 exactly where growth ends: there is no edge or no shallow pixel, or no pixel joins.
 * The output then has the pixels of the background, written as 0 and 1. Picture and
 * background are read only and stay as they were.
 *
 * For a cut that is keyed, the background is what its mask leaves off, and the reference
 * that of stand_ground or stand_ground_with_colour; what the output leaves is then the
 * mask of the cut with one pass more.
 *
 * Refusals 1, 2, 3 and 4 are tested in this order, as by stand_growth.
 *
 *   colours               input, 3 * h * w
 *   background            input, h * w bytes
 *   nearest               work buffer
 *   shallow, deep, marks  work buffers
 *   out                   output, h * w bytes, 1 on the background and 0 elsewhere
 */
StandNextPass stand_next_pass(
    const double *colours, size_t colours_len,
    const uint8_t *background, size_t background_len,
    size_t h, size_t w,
    StandRgb reference,
    uint32_t *nearest, size_t nearest_len,
    uint8_t *shallow, size_t shallow_len,
    uint8_t *deep, size_t deep_len,
    uint8_t *marks, size_t marks_len,
    uint8_t *out, size_t out_len);

/* The five settings of a cut (R30). */
typedef struct {
    int64_t alpha_threshold; /* the mask is on where alpha is at least this */
    bool key_bg;             /* whether a ground is sought where that mask is full */
    int64_t key_bg_fringe;   /* the most passes of growth; a negative number is 0 */
    double key_bg_tolerance; /* how far from the reference the ground may be */
    bool crop_to_alpha;      /* whether the crop box is the mask's */
} StandSettings;

/* The stand's own settings. */
static const StandSettings STAND_DEFAULT_SETTINGS = {128, true, 1, 0.03125, true};

/* What stand_cut and stand_cut_with_colour answer. */
typedef struct {
    uint32_t refusal;      /* STAND_ACCEPTED or the number of the refusal */
    bool keyed;            /* whether a ground was sought and found */
    size_t y0, y1, x0, x1; /* the crop box, ends excluded; all 0 when refused */
} StandCut;

/* Cut (R30 to R36): the outline that is filed.
 *
 * The mask is on where alpha is at least the threshold. If it is on everywhere and
 * key_bg asks for it, the ground is sought, and where it is found it grows and the
 * mask becomes what it leaves; where it is not found, the mask stays full. The
 * weight of a pixel is max(alpha, 1) / 255 on the mask and 0 elsewhere. The crop box
 * is the mask's box with one pixel added on each side, clamped to the picture; it
 * is the whole picture where crop_to_alpha is off or the mask is full. A mask is
 * never empty.
 *
 * Refusals 1 to 6 are tested in this order, whatever the settings.
 *
 *   colours               input, 3 * h * w
 *   alpha                 input, h * w bytes
 *   nearest               work buffer
 *   shallow, deep, marks  work buffers
 *   mask                  output, h * w bytes, each 0 or 1
 *   weights               output, h * w
 */
StandCut stand_cut(
    const double *colours, size_t colours_len,
    const uint8_t *alpha, size_t alpha_len,
    size_t h, size_t w,
    StandSettings settings,
    uint32_t *nearest, size_t nearest_len,
    uint8_t *shallow, size_t shallow_len,
    uint8_t *deep, size_t deep_len,
    uint8_t *marks, size_t marks_len,
    uint8_t *mask, size_t mask_len,
    double *weights, size_t weights_len);

/* Cut on card of a known colour (R83): as stand_cut, but the ground is the one that
 * stand_ground_with_colour finds, and it grows with the colour that the text gives as
 * its reference.
 *
 * Refusals 1, 2, 3, 11, 4, 5 and 6 are tested in this order, whatever the settings: a
 * wrong text is refused where no ground is sought, too.
 *
 *   colours               input, 3 * h * w
 *   alpha                 input, h * w bytes
 *   text                  input, the six digits of the card's colour
 *   nearest               work buffer
 *   shallow, deep, marks  work buffers
 *   mask                  output, h * w bytes, each 0 or 1
 *   weights               output, h * w
 */
StandCut stand_cut_with_colour(
    const double *colours, size_t colours_len,
    const uint8_t *alpha, size_t alpha_len,
    size_t h, size_t w,
    const uint8_t *text, size_t text_len,
    StandSettings settings,
    uint32_t *nearest, size_t nearest_len,
    uint8_t *shallow, size_t shallow_len,
    uint8_t *deep, size_t deep_len,
    uint8_t *marks, size_t marks_len,
    uint8_t *mask, size_t mask_len,
    double *weights, size_t weights_len);

#ifdef __cplusplus
}
#endif

#endif
