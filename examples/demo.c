/* A temper-colour ramp is converted and checked; then rows of the frame before are left in the planes, and the check finds them.
 * What is printed answers the auditor's three questions. Then a gain change makes one sample of the source too large, and both convert
 * and check name it. The same happens to one frame of a ring, which is converted up to that frame. Then a window on the source is
 * converted, for which what lies outside it may be anything. Last, the ramp is turned back to RGB and held against its source, and a word
 * that is no code is named. */
#include <ayresokum.h>
#include <stdio.h>
#include <string.h>

#define WIDTH 64
#define HEIGHT 16
#define RING 4

/* The window, with a corner at an odd column and an odd row. */
#define WINDOW_WIDTH 20
#define WINDOW_HEIGHT 6
#define FIRST_COLUMN 21
#define FIRST_ROW 5

/* Steel as it is tempered, from pale straw to grey blue, in 10 bits. */
static const uint16_t TEMPER[8][3] = {
    { 980, 912, 680 }, { 936, 800, 436 }, { 848, 632, 260 }, { 640, 400, 200 },
    { 500, 250, 330 }, { 330, 230, 560 }, { 250, 400, 700 }, { 520, 620, 690 }
};

#define SOURCE (HEIGHT * WIDTH * 3)
#define LUMA (HEIGHT * WIDTH)
#define CHROMA (HEIGHT / 2 * WIDTH)

static uint16_t source[SOURCE];
static uint16_t luma[LUMA], chroma[CHROMA];                 /* as recorded */
static uint16_t written_luma[LUMA], written_chroma[CHROMA]; /* as convert wrote them */
static uint16_t before_luma[LUMA], before_chroma[CHROMA];   /* of the frame before */

/* Frames laid end to end. */
static uint16_t ring_source[RING * SOURCE], ring_luma[RING * LUMA], ring_chroma[RING * CHROMA];
static const uint16_t unwritten[LUMA]; /* as the ring's planes are before, all 0, which is no code of limited range */

/* Of the window; and of its pixels in a source of their own. */
#define WINDOW_LUMA (WINDOW_HEIGHT * WINDOW_WIDTH)
#define WINDOW_CHROMA (WINDOW_HEIGHT / 2 * WINDOW_WIDTH)
static uint16_t window_luma[WINDOW_LUMA], window_chroma[WINDOW_CHROMA];
static uint16_t cut_source[WINDOW_LUMA * 3], cut_luma[WINDOW_LUMA], cut_chroma[WINDOW_CHROMA];

/* Of the ramp turned back. At 4:4:4 each pixel has chroma of its own. */
static uint16_t full_chroma[2 * LUMA], rgb[SOURCE];
static const uint16_t unwritten_rgb[SOURCE];

static const ayresokum_settings SETTINGS = {
    10, 13, AYRESOKUM_BT709, 0, 0, AYRESOKUM_LIMITED, AYRESOKUM_YUV420,
    AYRESOKUM_UV, AYRESOKUM_LEAST_SIGNIFICANT, AYRESOKUM_LITTLE_ENDIAN, AYRESOKUM_RGB
};

static ayresokum_frame whole_frame(void)
{
    return ayresokum_whole((ayresokum_frame){
        .width = WIDTH, .height = HEIGHT, .source_stride = WIDTH * 3, .luma_stride = WIDTH, .chroma_stride = WIDTH
    });
}

/* The ramp from left to right, moved by some columns, a little darker from row to row. */
static void draw(unsigned moved)
{
    unsigned row, column, channel;
    for (row = 0; row < HEIGHT; row++)
        for (column = 0; column < WIDTH; column++) {
            unsigned at = (column + moved) % WIDTH * 7, step = at / WIDTH, part = at % WIDTH;
            for (channel = 0; channel < 3; channel++) {
                unsigned here = TEMPER[step][channel], next = TEMPER[step + 1][channel];
                unsigned level = (here * (WIDTH - part) + next * part) / WIDTH;
                source[(row * WIDTH + column) * 3 + channel] = (uint16_t)(level - row);
            }
        }
}

static ayresokum_converted convert(void)
{
    return ayresokum_convert(SETTINGS, whole_frame(), source, SOURCE, luma, LUMA, chroma, CHROMA);
}

static ayresokum_checked check(void)
{
    return ayresokum_check(SETTINGS, whole_frame(), source, SOURCE, luma, LUMA, chroma, CHROMA);
}

static const char *channel_name(uint32_t channel)
{
    return channel == AYRESOKUM_RED ? "red" : channel == AYRESOKUM_GREEN ? "green" : "blue";
}

/* A refusal; number 10 comes with the place of the first sample that is too large. */
static void tell_refusal(uint32_t refusal, ayresokum_sample s)
{
    printf("refused, number %u", (unsigned)refusal);
    if (refusal == AYRESOKUM_TOO_LARGE)
        printf(": the sample at row %u, pixel %u, %s is too large", (unsigned)s.row, (unsigned)s.pixel, channel_name(s.channel));
    printf("\n");
}

static void tell_place(ayresokum_place p)
{
    printf("%s, row %u, element %u", p.plane == AYRESOKUM_LUMA ? "luma" : "chroma", (unsigned)p.row, (unsigned)p.element);
}

static void tell(ayresokum_checked c)
{
    if (c.refusal)
        tell_refusal(c.refusal, c.sample);
    else if (c.wrong) {
        printf("wrong: ");
        tell_place(c.place);
        printf("\n");
    } else
        printf("accepted\n");
}

/* Some rows of a plane as another has them. */
static void copy_rows(uint16_t *plane, const uint16_t *other, unsigned first, unsigned count)
{
    memcpy(plane + first * WIDTH, other + first * WIDTH, count * WIDTH * sizeof *plane);
}

static int are_planes_as_written(void)
{
    return memcmp(luma, written_luma, sizeof luma) == 0 && memcmp(chroma, written_chroma, sizeof chroma) == 0;
}

/* Each row that the check names is put right, until it accepts. */
static void name_rows(void)
{
    ayresokum_checked c = check();
    printf("1. Which rows of this frame were truly written?\n");
    printf("   Not these, as the check names them one after the other, each put right before the next:\n");
    while (c.refusal == 0 && c.wrong) {
        printf("     ");
        tell(c);
        if (c.place.plane == AYRESOKUM_LUMA)
            copy_rows(luma, written_luma, c.place.row, 1);
        else
            copy_rows(chroma, written_chroma, c.place.row, 1);
        c = check();
    }
    printf("   All others: ");
    tell(c);
}

static double apart(double a, double b)
{
    return a > b ? a - b : b - a;
}

/* The luma of one pixel by the published formula, its exact value, and how far the codes lie from it. */
static void explain(unsigned row, unsigned column)
{
    const ayresokum_settled w = ayresokum_settle(SETTINGS);
    const uint16_t *p = source + (row * WIDTH + column) * 3;
    const unsigned stored = written_luma[row * WIDTH + column], left = before_luma[row * WIDTH + column];
    const long sum = (long)p[0] * w.yr + (long)p[1] * w.yg + (long)p[2] * w.yb + 64 * 8192L + 4095;
    const double exact = 64 + (2126.0 * p[0] + 7152.0 * p[1] + 722.0 * p[2]) * 876 / (10000.0 * 1023);
    printf("2. Which published formula gives this code from that pixel?\n");
    printf("   Bt709 of Rec. ITU-T H.273: Kr 0.2126, Kb 0.0722, here in weights of 2^-13.\n");
    printf("   Row %u, column %u has R %u, G %u, B %u:\n", row, column, p[0], p[1], p[2]);
    printf("   (%u*%ld + %u*%ld + %u*%ld + 64*2^13 + 2^12 - 1) / 2^13, rounded down, is %ld. Convert stored %u.\n",
           p[0], (long)w.yr, p[1], (long)w.yg, p[2], (long)w.yb, sum / 8192, stored);
    printf("3. How far can a stored code lie from the formula's exact value?\n");
    printf("   At most 1/2 + 153*1023/(100*2^13) codes, that is %.3f.\n", 0.5 + 153.0 * 1023 / 819200);
    printf("   Here the exact value is %.3f: %u lies %.3f away; the %u left over lay %.3f away.\n",
           exact, stored, apart(exact, stored), left, apart(exact, left));
}

/* Doubles one sample of the source, which is then over 1023, and gives its new level. */
static unsigned double_sample(unsigned row, unsigned pixel, uint32_t channel)
{
    uint16_t *sample = &source[(row * WIDTH + pixel) * 3 + channel];
    return *sample = (uint16_t)(2 * *sample);
}

static void change_gain(unsigned row, unsigned pixel, uint32_t channel)
{
    const unsigned level = double_sample(row, pixel, channel);
    const ayresokum_converted c = convert();
    printf("\nA gain change: %s of pixel %u in row %u is now %u, over 1023.\n", channel_name(channel), pixel, row, level);
    printf("Convert: ");
    tell_refusal(c.refusal, c.sample);
    printf("Check: ");
    tell(check());
    printf("Both planes are %s.\n", are_planes_as_written() ? "as they were" : "changed");
}

/* Whether a frame's parts of the ring's planes are as they were before anything was converted. */
static int is_unwritten(unsigned frame)
{
    return memcmp(ring_luma + frame * LUMA, unwritten, LUMA * sizeof *unwritten) == 0
        && memcmp(ring_chroma + frame * CHROMA, unwritten, CHROMA * sizeof *unwritten) == 0;
}

static void tell_frame(unsigned frame)
{
    printf("  frame %u: ", frame);
    if (is_unwritten(frame)) {
        printf("as it was\n");
        return;
    }
    printf("written; check: ");
    tell(ayresokum_check(SETTINGS, whole_frame(), ring_source + frame * SOURCE, SOURCE,
                         ring_luma + frame * LUMA, LUMA, ring_chroma + frame * CHROMA, CHROMA));
}

/* Converts a ring in which one frame has a sample that is too large. */
static void convert_ring(unsigned spoiled)
{
    ayresokum_ring ring;
    unsigned frame;
    for (frame = 0; frame < RING; frame++) {
        draw(frame);
        if (frame == spoiled)
            double_sample(11, 20, AYRESOKUM_GREEN);
        memcpy(ring_source + frame * SOURCE, source, sizeof source);
    }
    ring = ayresokum_convert_ring(SETTINGS, whole_frame(), RING, ring_source, RING * SOURCE,
                                  ring_luma, RING * LUMA, ring_chroma, RING * CHROMA);
    printf("\nA ring of %d frames in one call, with the same sample doubled in frame %u alone.\n", RING, spoiled);
    printf("Convert: %u frames written; frame %u ", (unsigned)ring.written, (unsigned)ring.written);
    tell_refusal(ring.refusal, ring.sample);
    for (frame = 0; frame < RING; frame++)
        tell_frame(frame);
}

static ayresokum_frame window_from(size_t first_row)
{
    const ayresokum_frame window = {
        .width = WINDOW_WIDTH, .height = WINDOW_HEIGHT,
        .source_stride = WIDTH * 3, .luma_stride = WINDOW_WIDTH, .chroma_stride = WINDOW_WIDTH,
        .first_column = FIRST_COLUMN, .first_row = first_row, .source_rows = HEIGHT
    };
    return window;
}

/* Whether the planes of the window at its place are those of its pixels cut out of the source. */
static int is_as_cut_out(void)
{
    const ayresokum_frame frame = ayresokum_whole((ayresokum_frame){
        .width = WINDOW_WIDTH, .height = WINDOW_HEIGHT,
        .source_stride = WINDOW_WIDTH * 3, .luma_stride = WINDOW_WIDTH, .chroma_stride = WINDOW_WIDTH
    });
    unsigned row;
    for (row = 0; row < WINDOW_HEIGHT; row++)
        memcpy(cut_source + row * WINDOW_WIDTH * 3, source + ((FIRST_ROW + row) * WIDTH + FIRST_COLUMN) * 3,
               WINDOW_WIDTH * 3 * sizeof *source);
    ayresokum_convert(SETTINGS, frame, cut_source, WINDOW_LUMA * 3, cut_luma, WINDOW_LUMA, cut_chroma, WINDOW_CHROMA);
    return memcmp(cut_luma, window_luma, sizeof cut_luma) == 0 && memcmp(cut_chroma, window_chroma, sizeof cut_chroma) == 0;
}

/* Converts a window and, where it is not refused, checks it. */
static void tell_window(ayresokum_frame window)
{
    const ayresokum_converted c = ayresokum_convert(SETTINGS, window, source, SOURCE,
                                                    window_luma, WINDOW_LUMA, window_chroma, WINDOW_CHROMA);
    printf("Convert: ");
    if (c.refusal) {
        tell_refusal(c.refusal, c.sample);
        return;
    }
    printf("written, %s its pixels cut out of the ramp; check: ", is_as_cut_out() ? "as" : "otherwise than");
    tell(ayresokum_check(SETTINGS, window, source, SOURCE, window_luma, WINDOW_LUMA, window_chroma, WINDOW_CHROMA));
}

static void convert_window(void)
{
    draw(0);
    double_sample(FIRST_ROW, FIRST_COLUMN - 1, AYRESOKUM_RED);
    double_sample(FIRST_ROW - 1, FIRST_COLUMN, AYRESOKUM_RED);
    printf("\nA window of %d x %d on the ramp, from column %d and row %d on. Red of the pixels left of its corner and above it is over 1023.\n",
           WINDOW_WIDTH, WINDOW_HEIGHT, FIRST_COLUMN, FIRST_ROW);
    tell_window(window_from(FIRST_ROW));
    double_sample(FIRST_ROW, FIRST_COLUMN, AYRESOKUM_RED);
    printf("Red of the corner itself is over 1023, too.\n");
    tell_window(window_from(FIRST_ROW));
    printf("A window of as many rows from row %d on, where the source has %d.\n", HEIGHT - WINDOW_HEIGHT + 1, HEIGHT);
    tell_window(window_from(HEIGHT - WINDOW_HEIGHT + 1));
}

/* How far a sample that was turned back lies from that of the source at most, over all channels. */
static unsigned largest_difference(void)
{
    unsigned i, largest = 0;
    for (i = 0; i < SOURCE; i++)
        if (apart(source[i], rgb[i]) > largest)
            largest = (unsigned)apart(source[i], rgb[i]);
    return largest;
}

/* The same at 4:4:4, where pixels do not share their chroma. */
static unsigned largest_full_difference(void)
{
    ayresokum_settings settings = SETTINGS;
    ayresokum_frame frame = whole_frame();
    settings.subsampling = AYRESOKUM_YUV444;
    frame.chroma_stride = 2 * WIDTH;
    ayresokum_convert(settings, frame, source, SOURCE, luma, LUMA, full_chroma, 2 * LUMA);
    ayresokum_to_rgb(settings, frame, luma, LUMA, full_chroma, 2 * LUMA, rgb, SOURCE);
    return largest_difference();
}

static ayresokum_restored to_rgb(void)
{
    return ayresokum_to_rgb(SETTINGS, whole_frame(), luma, LUMA, chroma, CHROMA, rgb, SOURCE);
}

static void turn_back(void)
{
    draw(0);
    convert();
    to_rgb();
    printf("\nThe ramp turned back to RGB.\n");
    printf("Every sample lies at most %u from its source", largest_difference());
    printf("; at 4:4:4, where pixels do not share their chroma, at most %u.\n", largest_full_difference());
}

/* Flips a bit of a luma word, which is then over 1023. */
static void flip_bit(unsigned row, unsigned element)
{
    ayresokum_restored r;
    luma[row * WIDTH + element] ^= 1024;
    memset(rgb, 0, sizeof rgb);
    r = to_rgb();
    printf("One bit of a stored word is flipped, which makes it no code.\n");
    printf("Back to RGB: refused, number %u: ", (unsigned)r.refusal);
    tell_place(r.place);
    printf(" is not well formed\n");
    printf("The RGB buffer is %s.\n", memcmp(rgb, unwritten_rgb, sizeof rgb) == 0 ? "as it was" : "changed");
}

/* Draws and converts a frame; 0 for done. */
static uint32_t record(unsigned moved)
{
    draw(moved);
    return convert().refusal;
}

int main(void)
{
    printf("A temper-colour ramp, %d x %d, 10 bits, limited range, 4:2:0, P = 13.\n\n", WIDTH, HEIGHT);
    if (record(9) != AYRESOKUM_DONE)
        return 1;
    memcpy(before_luma, luma, sizeof luma);
    memcpy(before_chroma, chroma, sizeof chroma);
    if (record(0) != AYRESOKUM_DONE)
        return 1;
    memcpy(written_luma, luma, sizeof luma);
    memcpy(written_chroma, chroma, sizeof chroma);
    printf("Converted. Check: ");
    tell(check());
    copy_rows(luma, before_luma, 6, 4);
    copy_rows(chroma, before_chroma, 3, 2);
    printf("Luma rows 6 to 9 and chroma rows 3 and 4 left over from the frame before. Check: ");
    tell(check());
    printf("\n");
    name_rows();
    explain(6, 0);
    change_gain(11, 20, AYRESOKUM_GREEN);
    convert_ring(2);
    convert_window();
    turn_back();
    flip_bit(11, 20);
    return 0;
}
