/*
 * Which calibration file belongs to an exposure? The name B2S14C07F3 says block 2, strip 14, camera 07, flight 3, and the
 * position on which a camera digit stands says which camera of the expression it is.
 *
 *     cc -std=c99 demo.c $(pkg-config --cflags --libs satchelram) -o demo
 */
#include <satchelram.h>

#include <stdio.h>
#include <string.h>

static const char expression[] = "B(1|2|3)S(0|1)(0|1|2|3|4|5|6|7|8|9)C(07|12|31)F(1|2|3|4)";

/* The cameras by the positions of their digits in the expression: C is character 18. */
static const struct camera {
    unsigned lowest, highest;
    const char *file;
} cameras[] = {
    {19, 20, "camera-07.cal"},
    {21, 22, "camera-12.cal"},
    {23, 24, "camera-31.cal"},
};

static uint8_t sheet[SATCHELRAM_SHEET_MOST];
static size_t sheet_length;
static uint8_t work[SATCHELRAM_WORK_MOST];
static uint8_t mapping[12];

/* Gives 0, or 1 if the expression is refused. */
static int make_sheet(void)
{
    uint64_t answer = satchelram_sheet((const uint8_t *)expression, strlen(expression), sheet, sizeof sheet);
    printf("expression  %s\n", expression);
    if (satchelram_number(answer) != SATCHELRAM_DONE) {
        printf("refused     %u at place %u\n", satchelram_number(answer), (unsigned)satchelram_second(answer));
        return 1;
    }
    sheet_length = satchelram_second(answer);
    printf("sheet       %u bytes, %u characters\n", (unsigned)sheet_length, (unsigned)sheet[1]);
    return 0;
}

static const char *camera_file(size_t name_length)
{
    for (size_t place = 0; place < name_length; place++)
        for (size_t i = 0; i < sizeof cameras / sizeof cameras[0]; i++)
            if (cameras[i].lowest <= mapping[place] && mapping[place] <= cameras[i].highest)
                return cameras[i].file;
    return "none";
}

static void print_mapping(void)
{
    printf("mapping    ");
    for (size_t place = 0; place < sizeof mapping; place++)
        printf(" %u", (unsigned)mapping[place]);
    printf("\n");
}

static void read_name(const char *name)
{
    size_t length = strlen(name);
    uint64_t answer = satchelram_first(sheet, sheet_length, (const uint8_t *)name, length, mapping, sizeof mapping, work, sizeof work);
    printf("\nname        %s\n", name);
    switch (satchelram_number(answer)) {
    case SATCHELRAM_DONE:
        printf("answer      0, read\n");
        break;
    case SATCHELRAM_NO:
        printf("answer      1, not in the language\n");
        break;
    default:
        printf("answer      %u, refused\n", satchelram_number(answer));
    }
    print_mapping();
    printf("calibration %s\n", camera_file(length));
}

int main(void)
{
    if (make_sheet() != 0)
        return 1;
    read_name("B2S14C07F3");
    read_name("B2S14C0F3"); /* the 7 was dropped */
    return 0;
}
