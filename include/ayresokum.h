/* ayresokum.h - convert a frame of RGB samples to bi-planar YUV, check a recorded one, and turn it back to RGB
 *
 * SYNOPSIS
 *   #include <ayresokum.h>
 *   cc program.c libayresokum.a        or        cc program.c -layresokum
 *
 * DESCRIPTION
 *   10 to 16 bit RGB, RGBA, BGRA or BGR to a luma plane and a chroma plane, 4:2:0, 4:2:2 or 4:4:4, after the 16-bit path of
 *   the Rust crate yuvutils-rs 0.8.3. Every function is proved to answer every input as the project's rules say: the first refusal
 *   that applies, with nothing touched, or the whole result; in a ring so for each frame in turn.
 *
 *   ayresokum_settle works out the nine integer weights of settings. ayresokum_convert settles, converts a frame and writes
 *   both planes. ayresokum_convert_ring does so for up to 64 frames in one call. ayresokum_check settles and judges two planes from any
 *   converter against the source: the code of each visible sample may lie up to 1/2 + 153*m/(100*2^P) from its exact fraction, one
 *   half more for chroma of two or four pixels. ayresokum_to_rgb settles and turns two planes from any converter back to RGB.
 *
 *   Here P is the precision, and m = 2^depth - 1 is the largest sample and the largest code.
 *
 * REFUSALS
 *   Each call gives the first that applies, in the order of this list; 0 is none. After a refusal no element of any buffer has
 *   changed, but for the frames that ayresokum_convert_ring wrote before the refused one.
 *     18  a number of the settings names no case of its enumeration
 *      1  depth is not 10 to 16
 *      2  precision P is not 1 to 13
 *      3  custom pair: kr, kb and 1 - kr - kb are not all above 0; not-a-number counts as failing
 *      4  a weight is more than 51/100 from 2^P times its exact fraction (proved never to be given)
 *      5  white's luma, Cb of full blue or full yellow, or Cr of full red or full cyan would be a code outside 0 to m
 *      6  ayresokum_check and ayresokum_to_rgb only: the matrix is custom
 *      7  width or height is 0 or over 16384
 *     12  first_column, first_row or source_rows is over 16384, or first_row + height is over source_rows
 *      8  a stride is over 65536 or too short: source_stride for first_column + width pixels, the other two for a visible row
 *     11  ayresokum_convert_ring only: count is not 1 to 64
 *      9  a length is not exactly stride * rows, in a ring count * stride * rows; the source has source_rows rows
 *     10  a visible colour sample of the source is over m; comes with the place of the first one
 *     13  ayresokum_to_rgb only, in place of 10: a visible sample of a plane is not well formed; comes with the place of the first one
 *
 *   The place of refusal 10 is the sample's row, pixel and channel, counted from the window's corner. The first sample is found row by
 *   row, in a row pixel by pixel, and in a pixel red before green before blue, whatever the order of the channels in memory; alpha and
 *   what lies outside the window never count. ayresokum_convert and ayresokum_check give the same place for the same source.
 *
 *   The place of refusal 13 is the sample's plane, row and element. The first sample is found as a check finds the first wrong one: all of
 *   luma comes before chroma, and each plane goes row by row; padding never counts. A sample is well formed where its word, with the
 *   bytes exchanged back for big endian, has its low 16 - depth bits 0 in most significant packing, or is at most m in least significant.
 *
 * WINDOWS
 *   A frame is a window on a source, such as a strip of a sensor. The source has source_rows rows of source_stride elements. The visible
 *   pixels are width columns from first_column on, in height rows from first_row on, and the first pixel of these is the window's corner.
 *   Pairs and blocks of pixels count from the corner, whatever its parity, and so does the place of refusal 10: the outcome is that of the
 *   window's pixels copied to a source of their own. What lies outside the window is never read, and may be anything.
 *   With first_column 0, first_row 0 and source_rows equal to height a frame is whole, as all frames were in version 1; ayresokum_whole
 *   makes it so. A frame that was written for version 1, such as { 3, 1, 9, 4, 6 }, leaves source_rows at 0, and is refused as 12.
 *
 * RINGS
 *   A ring is count frames with equal settings, sizes, strides and windows, whose sources lie end to end, as do their planes. Frames count
 *   from 0, and the part of frame i begins at element i * stride * rows of each buffer. The outcome of ayresokum_convert_ring is that
 *   of converting the frames one after the other up to the first refused one, and for one frame it is that of ayresokum_convert.
 *   Refusal 0: written is count, and every frame is written. Refusal 10 speaks of one frame, that of number written: all frames before
 *   it are written, its own parts of both planes and those of all frames after it are as they were, and row and pixel of its
 *   sample count within that frame. Every other refusal speaks of the whole call: written is 0, and nothing has changed.
 *
 * BACK TO RGB
 *   ayresokum_to_rgb reads both planes and writes a window on an RGB buffer, which takes the source's place: the frame's source_stride,
 *   source_rows, first_column and first_row, the settings' channels, and refusals 12, 8 and 9 speak of it. Every colour of the window's
 *   pixels is written, and where the pixels have alpha, m as alpha. All other elements of the buffer stay as they were.
 *   Each pixel has the code Y of its own luma sample, and the codes Cb and Cr of the pair or block that it belongs to, counted from the
 *   window's corner. With bias_y = 16*2^(depth - 8) in limited range or 0 in full range, and bias_uv = 2^(depth - 1), the sums are
 *     red    (Y - bias_y)*y_coef + (Cr - bias_uv)*cr_coef
 *     green  (Y - bias_y)*y_coef - (Cr - bias_uv)*g_coeff_1 - (Cb - bias_uv)*g_coeff_2
 *     blue   (Y - bias_y)*y_coef + (Cb - bias_uv)*cb_coef
 *   and each gets 2^(P-1) - 1, is divided by 2^P rounded down, and is held to 0 to m. The five weights are those of yuvutils-rs's
 *   get_inverse_transform, worked out in its order in 32-bit floats, times 2^P, and rounded to the nearest whole number.
 *
 * BUFFERS
 *   All lengths and strides count uint16_t elements. source and rgb: source_rows rows of pixels, 3 or 4 samples each. luma: height rows of
 *   width. chroma: U and V side by side, 2*width (4:4:4) or width rounded up to even; height rows, or half of them rounded up at
 *   4:2:0. Elements of a plane past the visible ones of a row are never written and never judged.
 *   The caller guarantees that each pointer is aligned and good for its length, also where that is 0 (then any aligned pointer
 *   that is not NULL will do), that luma and chroma overlap neither each other nor the source while they are written, and that rgb
 *   overlaps neither plane.
 *
 * THREADS
 *   There is no state at all: any number of calls may run at once on buffers of their own.
 *
 * VERSION
 *   AYRESOKUM_VERSION is the number of this interface. It changes whenever the layout of a struct, or what a function takes or answers
 *   with, does. The shared library's name ends in it (libayresokum.so.AYRESOKUM_VERSION), so that a program linked with one version does
 *   not start with another. A program that loads the library by hand, or that may get header and library from different places,
 *   compares ayresokum_version() with AYRESOKUM_VERSION before any other call. Libraries before version 1 have no ayresokum_version.
 *   A new function leaves the version: the first libraries of version 1 have no ayresokum_convert_ring, the first ones of version 2 have
 *   no ayresokum_to_rgb, and the linker names it.
 *   Version 2 gave ayresokum_frame its last three fields, and refusal 12. In version 1 every frame was whole.
 */
#ifndef AYRESOKUM_H
#define AYRESOKUM_H

#include <stddef.h>
#include <stdint.h>

#define AYRESOKUM_VERSION 2

#ifdef __cplusplus
extern "C" {
#endif

enum ayresokum_matrix {
    AYRESOKUM_BT601 = 0,
    AYRESOKUM_BT709 = 1,
    AYRESOKUM_BT2020 = 2,
    AYRESOKUM_SMPTE240 = 3,
    AYRESOKUM_BT470_6 = 4, /* systems B and G: the numbers of BT601, and other ones than yuvutils-rs has */
    AYRESOKUM_CUSTOM = 5 /* kr and kb of the settings */
};

enum ayresokum_range { AYRESOKUM_LIMITED = 0, AYRESOKUM_FULL = 1 };

enum ayresokum_subsampling { AYRESOKUM_YUV420 = 0, AYRESOKUM_YUV422 = 1, AYRESOKUM_YUV444 = 2 };

enum ayresokum_order { AYRESOKUM_UV = 0, AYRESOKUM_VU = 1 };

/* A code is stored as code * 2^(16 - depth), or as it is. */
enum ayresokum_packing { AYRESOKUM_MOST_SIGNIFICANT = 0, AYRESOKUM_LEAST_SIGNIFICANT = 1 };

/* Big endian exchanges the two bytes of every stored word; little endian leaves them. */
enum ayresokum_byte_order { AYRESOKUM_BIG_ENDIAN = 0, AYRESOKUM_LITTLE_ENDIAN = 1 };

enum ayresokum_channels { AYRESOKUM_RGB = 0, AYRESOKUM_RGBA = 1, AYRESOKUM_BGRA = 2, AYRESOKUM_BGR = 3 };

enum ayresokum_refusal {
    AYRESOKUM_DONE = 0,
    AYRESOKUM_DEPTH = 1,
    AYRESOKUM_PRECISION = 2,
    AYRESOKUM_CUSTOM_PAIR = 3,
    AYRESOKUM_WEIGHT_OFF = 4,
    AYRESOKUM_CODE_OUTSIDE = 5,
    AYRESOKUM_CUSTOM_UNCHECKED = 6,
    AYRESOKUM_SIZE = 7,
    AYRESOKUM_STRIDE = 8,
    AYRESOKUM_LENGTH = 9,
    AYRESOKUM_TOO_LARGE = 10,
    AYRESOKUM_COUNT = 11,
    AYRESOKUM_WINDOW = 12,
    AYRESOKUM_MALFORMED = 13,
    AYRESOKUM_UNNAMED = 18
};

enum ayresokum_plane { AYRESOKUM_LUMA = 0, AYRESOKUM_CHROMA = 1 };

enum ayresokum_channel { AYRESOKUM_RED = 0, AYRESOKUM_GREEN = 1, AYRESOKUM_BLUE = 2 };

/* Numbers of the enumerations above; kr and kb are read for AYRESOKUM_CUSTOM alone. */
typedef struct ayresokum_settings {
    uint32_t depth;     /* 10 to 16 */
    uint32_t precision; /* P, 1 to 13; the greater it is, the narrower is the tolerance of a check */
    uint32_t matrix;
    float kr;
    float kb;
    uint32_t range;
    uint32_t subsampling;
    uint32_t order;
    uint32_t packing;
    uint32_t byte_order;
    uint32_t channels;
} ayresokum_settings;

/* A window on a source, or for ayresokum_to_rgb on the RGB buffer in its place: width and height in pixels, strides in elements. Where it
 * is the whole source, ayresokum_whole fills in the last three. */
typedef struct ayresokum_frame {
    size_t width;
    size_t height;
    size_t source_stride;
    size_t luma_stride;
    size_t chroma_stride;
    size_t first_column; /* pixels of a source row before the window */
    size_t first_row;    /* rows of the source before the window */
    size_t source_rows;  /* rows of the source in all; never 0 */
} ayresokum_frame;

/* The weights of red, green and blue in luma, in Cb and in Cr, times 2^P; all 0 on a refusal. */
typedef struct ayresokum_settled {
    uint32_t refusal;
    int32_t yr, yg, yb;
    int32_t cb_r, cb_g, cb_b;
    int32_t cr_r, cr_g, cr_b;
} ayresokum_settled;

/* Where a sample of the source stands: its row, its pixel in the row, and the enum ayresokum_channel. Rows and pixels count from 0 at the
 * window's corner. */
typedef struct ayresokum_sample {
    uint32_t row;
    uint32_t pixel;
    uint32_t channel;
} ayresokum_sample;

/* Where a sample of a plane stands: the enum ayresokum_plane, its row, and its element in the row. Rows and elements count from 0. */
typedef struct ayresokum_place {
    uint32_t plane;
    uint32_t row;
    uint32_t element;
} ayresokum_place;

/* Refusal 0: both planes are written. Refusal 10: sample is where the first one over m stands. What does not apply is 0. */
typedef struct ayresokum_converted {
    uint32_t refusal;
    ayresokum_sample sample;
} ayresokum_converted;

/* How many frames of a ring are written, all from the first on, and what ended it. Refusal 0: all are written. Refusal 10: sample is where
 * the first one over m stands in frame number written, counted from 0. What does not apply is 0. */
typedef struct ayresokum_ring {
    uint32_t written;
    uint32_t refusal;
    ayresokum_sample sample;
} ayresokum_ring;

/* Refusal 0 and wrong 0: accepted. Wrong 1: place is that of the first wrong sample, where all of luma comes before chroma and each plane
 * goes row by row. Refusal 10: sample is where the first one over m stands. What does not apply is 0. */
typedef struct ayresokum_checked {
    uint32_t refusal;
    uint32_t wrong;
    ayresokum_place place;
    ayresokum_sample sample;
} ayresokum_checked;

/* Refusal 0: the window's pixels are written. Refusal 13: place is where the first sample that is not well formed stands. What does not
 * apply is 0. */
typedef struct ayresokum_restored {
    uint32_t refusal;
    ayresokum_place place;
} ayresokum_restored;

/* The frame as a whole one: first_column and first_row 0 and source_rows height, whatever they were. In C it is written at once:
 *   ayresokum_whole((ayresokum_frame){ .width = 3, .height = 1, .source_stride = 9, .luma_stride = 4, .chroma_stride = 6 })
 * and a window without it, by naming the three as well: .first_column = 5, .first_row = 2, .source_rows = 1080. */
static inline ayresokum_frame ayresokum_whole(ayresokum_frame frame)
{
    frame.first_column = 0;
    frame.first_row = 0;
    frame.source_rows = frame.height;
    return frame;
}

/* The number of the library's interface: AYRESOKUM_VERSION of the header that belongs to it. */
uint32_t ayresokum_version(void);

/* The weights of settings, or a refusal: 18 or 1 to 5. */
ayresokum_settled ayresokum_settle(ayresokum_settings settings);

/* Converts a frame: refusal 0 with both planes written, or a refusal (18, 1 to 5, 7, 12, 8 to 10) with both as they were. */
ayresokum_converted ayresokum_convert(ayresokum_settings settings, ayresokum_frame frame,
                                      const uint16_t *source, size_t source_length,
                                      uint16_t *luma, size_t luma_length,
                                      uint16_t *chroma, size_t chroma_length);

/* Converts count frames that lie end to end, 1 to 64, in turn: refusal 0 with all of them written, or a refusal of the whole call (18,
 * 1 to 5, 7, 12, 8, 11, 9, in this order) with none written, or refusal 10 of frame number written with all frames before it written. */
ayresokum_ring ayresokum_convert_ring(ayresokum_settings settings, ayresokum_frame frame, size_t count,
                                      const uint16_t *source, size_t source_length,
                                      uint16_t *luma, size_t luma_length,
                                      uint16_t *chroma, size_t chroma_length);

/* Checks two planes, from any converter, against the source: a verdict, or a refusal (18, 1 to 7, 12, 8 to 10). Writes nothing. */
ayresokum_checked ayresokum_check(ayresokum_settings settings, ayresokum_frame frame,
                                  const uint16_t *source, size_t source_length,
                                  const uint16_t *luma, size_t luma_length,
                                  const uint16_t *chroma, size_t chroma_length);

/* Turns two planes, from any converter, back to RGB: refusal 0 with the window's pixels written, or a refusal (18, 1 to 7, 12, 8, 9, 13)
 * with the RGB buffer as it was. Writes to neither plane. */
ayresokum_restored ayresokum_to_rgb(ayresokum_settings settings, ayresokum_frame frame,
                                    const uint16_t *luma, size_t luma_length,
                                    const uint16_t *chroma, size_t chroma_length,
                                    uint16_t *rgb, size_t rgb_length);

#ifdef __cplusplus
}
#endif

#endif
