/* Document 01's whole frame: red, blue, white at 10 bits, 4:2:0, planes filled with 7 before; then with one sample too large. */
#include <ayresokum.h>
#include <stdio.h>

static void print(const char *name, const uint16_t *plane, size_t length)
{
    size_t i;
    printf("%s", name);
    for (i = 0; i < length; i++)
        printf(" %u", (unsigned)plane[i]);
    printf("\n");
}

/* A refusal's number, and for number 10 the place of the sample. */
static void print_refusal(ayresokum_converted c)
{
    static const char *const channels[] = { "red", "green", "blue" };
    printf("refusal %u", (unsigned)c.refusal);
    if (c.refusal == AYRESOKUM_TOO_LARGE)
        printf(": row %u, pixel %u, %s", (unsigned)c.sample.row, (unsigned)c.sample.pixel, channels[c.sample.channel]);
    printf("\n");
}

int main(void)
{
    const ayresokum_settings settings = {
        10, 13, AYRESOKUM_BT601, 0, 0, AYRESOKUM_FULL, AYRESOKUM_YUV420,
        AYRESOKUM_UV, AYRESOKUM_LEAST_SIGNIFICANT, AYRESOKUM_LITTLE_ENDIAN, AYRESOKUM_RGB
    };
    const ayresokum_frame frame = ayresokum_whole((ayresokum_frame){
        .width = 3, .height = 1, .source_stride = 9, .luma_stride = 4, .chroma_stride = 6
    });
    uint16_t source[9] = { 1023, 0, 0, 0, 0, 1023, 1023, 1023, 1023 };
    uint16_t luma[4] = { 7, 7, 7, 7 };
    uint16_t chroma[6] = { 7, 7, 7, 7, 7, 7 };
    ayresokum_converted converted;
    ayresokum_checked checked;
    if (ayresokum_version() != AYRESOKUM_VERSION) {
        printf("the library has interface %u, and the header %u\n", (unsigned)ayresokum_version(), (unsigned)AYRESOKUM_VERSION);
        return 1;
    }
    converted = ayresokum_convert(settings, frame, source, 9, luma, 4, chroma, 6);
    if (converted.refusal != AYRESOKUM_DONE) {
        print_refusal(converted);
        return 1;
    }
    print("luma", luma, 4);
    print("chroma", chroma, 6);
    checked = ayresokum_check(settings, frame, source, 9, luma, 4, chroma, 6);
    printf("check: %s\n", checked.refusal == 0 && checked.wrong == 0 ? "accepted" : "not accepted");
    source[5] = 1024;
    printf("with blue of pixel 1 at 1024: ");
    print_refusal(ayresokum_convert(settings, frame, source, 9, luma, 4, chroma, 6));
    return 0;
}
