/* Every call of the header, accepted and refused. Prints what each answers. */
#include "stand.h"
#include <stdio.h>

#define H 2
#define W 2
#define N (H * W)
#define WORK (2 * N + 2 * (H + W) + 16)
#define SIDE 5
#define PIXELS (SIDE * SIDE)
#define ROOM (2 * PIXELS + 2 * (SIDE + SIDE) + 16)
#define MORE 9

/* Looks at the coming pass of a row of seven pixels: white, two that are nearly so, four black. The last
 * reference is no colour. Prints the number, the joins, the pixels on, and whether the input is as it was. */
static void looks(void)
{
    static const double greys[7] = {1.0, 0.875, 0.75, 0.0, 0.0, 0.0, 0.0};
    double colours[3 * 7];
    uint8_t background[7] = {7, 0, 0, 0, 0, 0, 0}, before[7], next[7];
    uint32_t nearest[2 * 7 + 2 * 8 + 16];
    uint8_t shallow[2 * 7 + 2 * 8 + 16], deep[2 * 7 + 2 * 8 + 16], marks[2 * 7 + 2 * 8 + 16];
    size_t room = stand_work_len(1, 7);
    StandRgb reference = {1.0, 1.0, 1.0};
    int i, j;

    for (i = 0; i < 3 * 7; i++) colours[i] = greys[i / 3];
    for (j = 0; j < 4; j++) {
        StandNextPass look;
        int on = 0, kept = 0;
        for (i = 0; i < 7; i++) before[i] = background[i];
        if (j == 3) reference.b = 2.0;
        look = stand_next_pass(colours, 3 * 7, background, 7, 1, 7, reference, nearest, room, shallow,
                               room, deep, room, marks, room, next, 7);
        for (i = 0; i < 7; i++) on += next[i];
        for (i = 0; i < 7; i++) kept += background[i] == before[i];
        printf("next pass %u, %u joins: %d, kept %d\n", (unsigned)look.refusal, (unsigned)look.joins,
               on, kept);
        if (j < 2) background[j + 1] = 1;
    }
}

/* Ground and cut with the card's colour, on the same card: white is found and grey is not. A NUL that
 * is counted makes the text too long. */
static void with_colour(const double *colours, const uint8_t *alpha)
{
    static const char *const texts[3] = {"FFfffF", "808080", "#FFFFF"};
    double weights[PIXELS];
    uint8_t background[PIXELS], mask[PIXELS];
    uint32_t nearest[ROOM];
    uint8_t shallow[ROOM], deep[ROOM], marks[ROOM];
    StandSettings settings = STAND_DEFAULT_SETTINGS;
    size_t room = stand_work_len(SIDE, SIDE);
    int i, j;

    for (j = 0; j < 4; j++) {
        const uint8_t *text = (const uint8_t *)texts[j % 3];
        size_t len = j < 3 ? 6 : 7;
        StandGround ground = stand_ground_with_colour(colours, 3 * PIXELS, SIDE, SIDE, text, len,
                                                      0.03125, nearest, room, background, PIXELS);
        StandCut cut = stand_cut_with_colour(colours, 3 * PIXELS, alpha, PIXELS, SIDE, SIDE, text,
                                             len, settings, nearest, room, shallow, room, deep,
                                             room, marks, room, mask, PIXELS, weights, PIXELS);
        int on = 0;
        for (i = 0; cut.refusal == STAND_ACCEPTED && i < PIXELS; i++) on += mask[i];
        printf("colour %u %d %g, %u %d, crop %u %u %u %u: %d\n", (unsigned)ground.refusal,
               (int)ground.found, ground.reference.g, (unsigned)cut.refusal, (int)cut.keyed,
               (unsigned)cut.y0, (unsigned)cut.y1, (unsigned)cut.x0, (unsigned)cut.x1, on);
    }
    printf("refused %d\n", STAND_CARD_COLOUR);
}

/* Ground, growth and cut on a white card with one black pixel in its middle. */
static void picture(void)
{
    double colours[3 * PIXELS], weights[PIXELS];
    uint8_t alpha[PIXELS], background[PIXELS], mask[PIXELS];
    uint32_t nearest[ROOM];
    uint8_t shallow[ROOM], deep[ROOM], marks[ROOM];
    StandSettings settings = STAND_DEFAULT_SETTINGS;
    size_t room = stand_work_len(SIDE, SIDE);
    StandGround ground;
    StandCut cut;
    unsigned answer;
    int i, on = 0;

    for (i = 0; i < 3 * PIXELS; i++) colours[i] = i / 3 == 12 ? 0.0 : 1.0;
    for (i = 0; i < PIXELS; i++) alpha[i] = 255;

    ground = stand_ground(colours, 3 * PIXELS, SIDE, SIDE, 0.03125, nearest, room, background,
                          PIXELS);
    for (i = 0; i < PIXELS; i++) on += background[i];
    printf("ground %u %d, %g %g %g: %d\n", (unsigned)ground.refusal, (int)ground.found,
           ground.reference.r, ground.reference.g, ground.reference.b, on);

    answer = stand_growth(colours, 3 * PIXELS, background, PIXELS, SIDE, SIDE, ground.reference, 1,
                          nearest, room, shallow, room, deep, room, marks, room, mask, PIXELS);
    for (on = 0, i = 0; i < PIXELS; i++) on += mask[i];
    printf("growth %u: %d\n", answer, on);

    cut = stand_cut(colours, 3 * PIXELS, alpha, PIXELS, SIDE, SIDE, settings,
                    nearest, room, shallow, room, deep, room, marks, room, mask, PIXELS,
                    weights, PIXELS);
    for (on = 0, i = 0; i < PIXELS; i++) on += mask[i];
    printf("cut %u, keyed %d, crop %u %u %u %u: %d, weight %g\n", (unsigned)cut.refusal,
           (int)cut.keyed, (unsigned)cut.y0, (unsigned)cut.y1, (unsigned)cut.x0, (unsigned)cut.x1,
           on, weights[12]);

    printf("bytes %u %u %u %u %u\n", (unsigned)sizeof(StandRgb), (unsigned)sizeof(StandGround),
           (unsigned)sizeof(StandNextPass), (unsigned)sizeof(StandSettings), (unsigned)sizeof(StandCut));
    printf("refused %d %d %d,", STAND_COLOUR, STAND_TOLERANCE, STAND_ALPHA);
    settings.alpha_threshold = 256;
    cut = stand_cut(colours, 3 * PIXELS, alpha, PIXELS, SIDE, SIDE, settings,
                    nearest, room, shallow, room, deep, room, marks, room, mask, PIXELS,
                    weights, PIXELS);
    printf(" %u", (unsigned)cut.refusal);
    ground = stand_ground(colours, 3 * PIXELS, SIDE, SIDE, 1e308 * 10, nearest, room, background,
                          PIXELS);
    printf(" %u", (unsigned)ground.refusal);
    ground.reference.g = 1.5;
    printf(" %u\n", (unsigned)stand_growth(colours, 3 * PIXELS, background, PIXELS, SIDE, SIDE,
                                           ground.reference, 1, nearest, room, shallow, room,
                                           deep, room, marks, room, mask, PIXELS));
    with_colour(colours, alpha);
    looks();
}

/* Squares with these numbers on a plane of SIDE by SIDE. Prints how many bytes of the work buffer, which
 * is longer than it need be, are what they were, or, after an accepted call, 0 or 1. */
static void work_of_squares(size_t h, size_t pixels, uint64_t iterations, size_t room)
{
    uint8_t mask[PIXELS], out[PIXELS], work[ROOM + MORE], before[ROOM + MORE];
    unsigned answer;
    int i, kept = 0;

    for (i = 0; i < PIXELS; i++) mask[i] = i % 6 == 0 ? 0 : 9;
    for (i = 0; i < ROOM + MORE; i++) before[i] = 7;
    before[3] = before[ROOM] = 0;
    before[4] = before[ROOM + 1] = 1;
    for (i = 0; i < ROOM + MORE; i++) work[i] = before[i];

    answer = stand_squares(mask, pixels, h, SIDE, iterations, work, room, out, PIXELS);
    for (i = 0; i < ROOM + MORE; i++)
        kept += work[i] == before[i] || (answer == STAND_ACCEPTED && work[i] <= 1);
    printf("work %u: %d of %d\n", answer, kept, ROOM + MORE);
}

int main(void)
{
    const uint8_t mask[N] = {0, 9, 1, 0};
    const uint64_t colours[3 * N] = {1, 2, 3, 4, 5, 6, 7, 8, 9, 10, 11, 12};
    int32_t rows[N], cols[N];
    uint32_t words[WORK], numbers[N];
    uint64_t filled[3 * N];
    uint8_t bytes[WORK], out[N];
    StandLabels parts;
    size_t room = stand_work_len(H, W);
    unsigned answer;
    int i;

    answer = stand_nearest(mask, N, H, W, words, room, rows, N, cols, N);
    printf("nearest %u:", answer);
    for (i = 0; i < N; i++) printf(" %d,%d", (int)rows[i], (int)cols[i]);

    parts = stand_labels(mask, N, H, W, words, room, numbers, N);
    printf("\nlabels %u, %u:", (unsigned)parts.refusal, (unsigned)parts.parts);
    for (i = 0; i < N; i++) printf(" %u", (unsigned)numbers[i]);

    answer = stand_squares(mask, N, H, W, 1, bytes, room, out, N);
    printf("\nsquares %u:", answer);
    for (i = 0; i < N; i++) printf(" %u", (unsigned)out[i]);

    answer = stand_distance(mask, N, H, W, words, room, numbers, N);
    printf("\ndistance %u:", answer);
    for (i = 0; i < N; i++) printf(" %u", (unsigned)numbers[i]);

    answer = stand_fill(colours, 3 * N, mask, N, H, W, words, room, filled, 3 * N);
    printf("\nfill %u:", answer);
    for (i = 0; i < 3 * N; i++) printf(" %u", (unsigned)filled[i]);

    parts = stand_labels(mask, N, H, STAND_MOST_SIDE + 1, words, room, numbers, N);
    printf("\nrefused %d %d %d, %u %u", STAND_SIDE, STAND_INPUT_LENGTH, STAND_ROOM,
           (unsigned)parts.refusal, (unsigned)parts.parts);
    printf(" %u", (unsigned)stand_nearest(mask, N, 0, W, words, room, rows, N, cols, N));
    printf(" %u", (unsigned)stand_squares(mask, N - 1, H, W, 1, bytes, room, out, N));
    printf(" %u\n", (unsigned)stand_squares(mask, N, H, W, 1, bytes, room - 1, out, N));

    work_of_squares(SIDE, PIXELS, 1, ROOM + MORE);
    work_of_squares(SIDE, PIXELS, 0, ROOM + MORE);
    work_of_squares(0, PIXELS, 1, ROOM + MORE);
    work_of_squares(SIDE, PIXELS - 1, 1, ROOM + MORE);
    work_of_squares(SIDE, PIXELS, 1, ROOM - 1);
    picture();

    /* Sides that every call declines need no room; the largest that none declines need some. */
    printf("room %lu %lu %lu %lu %lu %lu\n", (unsigned long)stand_work_len(0, 5),
           (unsigned long)stand_work_len(5, STAND_MOST_SIDE + 1),
           (unsigned long)stand_work_len((size_t)-1, (size_t)-1),
           (unsigned long)stand_work_len((size_t)-1 / 2 + 1, 2), (unsigned long)stand_work_len(1, 1),
           (unsigned long)stand_work_len(STAND_MOST_SIDE, STAND_MOST_SIDE));
    printf("version %s %d %d %d\n", STAND_VERSION, STAND_VERSION_MAJOR, STAND_VERSION_MINOR,
           STAND_VERSION_PATCH);
    return STAND_ACCEPTED;
}
