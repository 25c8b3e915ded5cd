// One refused call of each function of the C boundary, a whole run of each filter, rectangles by the loupe, a grey picture, and cut files. Prints how many answers were compared; exits with 1 if one differs.
#include "restoration.h"

#include <math.h>
#include <stdio.h>
#include <string.h>

static unsigned refused, compared, differing;

static void compare(bool same, const char *what)
{
    compared++;
    if (!same) {
        differing++;
        printf("differs: %s\n", what);
    }
}

#define COMPARE(same) compare(same, #same)

// A refused call with the answer `a`: its number, and a condition on its other fields.
#define REFUSED(Answer, call, expected, others) \
    do { \
        Answer a = call; \
        refused++; \
        compare(a.number == expected, #call); \
        COMPARE(others); \
    } while (0)

// A refused call that answers a number alone and leaves the buffer, an array, unchanged.
#define REFUSED_NUMBER(call, expected, buffer) \
    do { \
        unsigned char was[sizeof(buffer)]; \
        memcpy(was, buffer, sizeof(buffer)); \
        refused++; \
        compare(call == expected, #call); \
        COMPARE(memcmp(was, buffer, sizeof(buffer)) == 0); \
    } while (0)

static bool zeros(const void *field, size_t size)
{
    const unsigned char *bytes = field;
    while (size > 0 && bytes[size - 1] == 0)
        size--;
    return size == 0;
}

#define ZEROS(field) zeros(&(field), sizeof(field))

static bool gabor_zeros(RestorationGabor gabor)
{
    return !gabor.enabled && ZEROS(gabor.weights);
}

static bool epf_zeros(RestorationEdgePreservingFilter epf)
{
    return !epf.enabled && epf.iters == 0 && ZEROS(epf.sharp_lut) && ZEROS(epf.channel_scale) && ZEROS(epf.sigma)
        && ZEROS(epf.sigma_for_modular);
}

enum { SIDE = 3, PLANES = 3, SAMPLES = PLANES * SIDE * SIDE, GROUP = 3 };

static const RestorationRegion image = {.width = SIDE, .height = SIDE}, wide = {.width = 16385, .height = 1};
static const RestorationFrame frame = {.width = SIDE, .height = SIDE, .upsampling = 1};
// The frame has one group, without a grid.
static const uint32_t table[GROUP];

static void regions(void)
{
    REFUSED(RestorationBoolAnswer, restoration_region_is_empty(wide), RESTORATION_OUT_OF_LIMITS, !a.holds);
    REFUSED(RestorationEdgeAnswer, restoration_region_right(wide), RESTORATION_OUT_OF_LIMITS, a.edge == 0);
    REFUSED(RestorationEdgeAnswer, restoration_region_bottom(wide), RESTORATION_OUT_OF_LIMITS, a.edge == 0);
    REFUSED(RestorationBoolAnswer, restoration_region_contains(image, wide), RESTORATION_OUT_OF_LIMITS, !a.holds);
    REFUSED(RestorationRegionAnswer, restoration_region_translate(image, 0, 1048577), RESTORATION_OUT_OF_LIMITS, ZEROS(a.region));
    REFUSED(RestorationRegionAnswer, restoration_region_intersection(image, wide), RESTORATION_OUT_OF_LIMITS, ZEROS(a.region));
    REFUSED(RestorationRegionAnswer, restoration_region_pad(image, 16384), RESTORATION_OUT_OF_LIMITS, ZEROS(a.region));
    REFUSED(RestorationRegionAnswer, restoration_region_downsample(image, 17), RESTORATION_OUT_OF_RANGE, ZEROS(a.region));
    REFUSED(RestorationRegionAnswer, restoration_region_container_aligned(image, 3), RESTORATION_OUT_OF_RANGE, ZEROS(a.region));
    // Accepted calls whose answers depend on the order of the parameters.
    RestorationRegion moved = restoration_region_translate(image, 1, 2).region;
    COMPARE(moved.left == 1 && moved.top == 2 && moved.width == SIDE && moved.height == SIDE);
    RestorationRegion corner = {.width = 1, .height = 2};
    COMPARE(restoration_region_contains(image, corner).holds && !restoration_region_contains(corner, image).holds);
}

static void frames(void)
{
    RestorationFrame empty = {.width = 0};
    RestorationBlocks blocks = {.width = SIDE, .height = SIDE};
    float sigmas[] = {5, 5};
    REFUSED(RestorationFrameAnswer, restoration_group_sizes(empty), RESTORATION_OUT_OF_LIMITS, ZEROS(a.sizes));
    REFUSED(RestorationSplitAnswer, restoration_split_block(0, 4), RESTORATION_OUT_OF_RANGE, a.group == 0 && a.inner == 0);
    RestorationSplitAnswer split = restoration_split_block(300, 0);
    COMPARE(split.group == 2 && split.inner == 44);
    REFUSED_NUMBER(restoration_block_sigmas(1, frame, blocks, table, GROUP, NULL, 0, 1, sigmas, 2), RESTORATION_WRONG_LENGTH, sigmas);
    // A present grid 2,000 wide is beyond the limit, but no entry of a table of wrong length is read (Specification 7.4).
    static const uint32_t too_wide[2 * GROUP] = {1, 2000, 1};
    REFUSED_NUMBER(restoration_block_sigmas(1, frame, blocks, too_wide, GROUP, NULL, 0, 1, sigmas, 1), RESTORATION_OUT_OF_LIMITS, sigmas);
    REFUSED_NUMBER(restoration_block_sigmas(1, frame, blocks, too_wide, 2 * GROUP, NULL, 0, 1, sigmas, 1), RESTORATION_WRONG_LENGTH, sigmas);
    // The last left in measure, and the first that is not (Specification 7.9).
    blocks.left = 131072;
    REFUSED_NUMBER(restoration_block_sigmas(1, frame, blocks, table, GROUP, NULL, 0, 1, sigmas, 1), RESTORATION_BLOCK_NOT_HELD, sigmas);
    blocks.left = 131073;
    REFUSED_NUMBER(restoration_block_sigmas(1, frame, blocks, table, GROUP, NULL, 0, 1, sigmas, 1), RESTORATION_OUT_OF_LIMITS, sigmas);
}

static void headers(void)
{
    REFUSED(RestorationHalfAnswer, restoration_read_half(NULL, 0, 0), RESTORATION_BITS_RUN_OUT, ZEROS(a.value) && a.next == 0);
    REFUSED(RestorationGaborAnswer, restoration_read_gabor(NULL, 0, 0), RESTORATION_BITS_RUN_OUT, gabor_zeros(a.gabor) && a.next == 0);
    REFUSED(RestorationEpfAnswer, restoration_read_epf_vardct(NULL, 0, 0), RESTORATION_BITS_RUN_OUT, epf_zeros(a.epf) && a.next == 0);
    REFUSED(RestorationEpfAnswer, restoration_read_epf_modular(NULL, 0, 0), RESTORATION_BITS_RUN_OUT, epf_zeros(a.epf) && a.next == 0);
    REFUSED(RestorationAnswer, restoration_read_filters_vardct(NULL, 0, 0), RESTORATION_BITS_RUN_OUT,
        gabor_zeros(a.filter.gabor) && epf_zeros(a.filter.epf) && a.next == 0);
    REFUSED(RestorationAnswer, restoration_read_filters_modular(NULL, 0, 0), RESTORATION_BITS_RUN_OUT,
        gabor_zeros(a.filter.gabor) && epf_zeros(a.filter.epf) && a.next == 0);
}

static void passes(void)
{
    RestorationRegion corner = {.width = 1, .height = 2};
    RestorationGaborSettings gabor = {.enabled = 1};
    RestorationEpfStep step = {.step = 3};
    RestorationSettings settings = {.gabor = gabor, .epf = {.iters = 4}};
    float from[SAMPLES] = {0}, to[SAMPLES] = {5}, sigma = 1;
    REFUSED(RestorationMirrorAnswer, restoration_mirror(-1, 0), RESTORATION_OUT_OF_RANGE, a.index == 0);
    COMPARE(restoration_mirror(-3, 2).index == 1);
    REFUSED(RestorationMarginAnswer, restoration_margin(settings), RESTORATION_OUT_OF_RANGE, a.margin == 0);
    settings.epf.iters = 3;
    COMPARE(restoration_margin(settings).margin == 7);
    // 20 - 7 is 13, moved down to 8, and 26 + 7 is 33; 30 - 7 is 23, moved down to 16, and 75 + 7 is past the whole's 80 (Specification 17.2).
    RestorationLoupeSetup setup = {
        .whole = {.width = 100, .height = 80}, .wanted = {.left = 20, .top = 30, .width = 6, .height = 45}, .planes = PLANES, .settings = settings};
    RestorationRegion widened = restoration_loupe_widened(setup).region;
    COMPARE(widened.left == 8 && widened.top == 16 && widened.width == 25 && widened.height == 64);
    REFUSED_NUMBER(restoration_gabor_pass(corner, image, PLANES, 1, gabor, 0, SIDE, from, SAMPLES, to, SAMPLES), RESTORATION_NOT_INSIDE, to);
    REFUSED_NUMBER(restoration_epf_pass(image, image, PLANES, 1, step, &sigma, 1, 0, SIDE, from, SAMPLES, to, SAMPLES), RESTORATION_OUT_OF_RANGE, to);
    for (step.step = 0; step.step < 3; step.step++) {
        to[0] = 5;
        COMPARE(restoration_epf_pass(image, image, PLANES, 1, step, &sigma, 1, 0, SIDE, from, SAMPLES, to, SAMPLES) == RESTORATION_ACCEPTED && ZEROS(to));
    }

    // Specification 11.8: step 2 with sigma 1, M = 1 and channel scales 1, 0, 0 on planes of one row 0, 1/2.
    static const uint32_t stepped[] = {0x3B87E264, 0x3EFDE078};
    RestorationRegion row = {.width = 2, .height = 1};
    RestorationEpfStep last = {.step = 2, .channel_scale = {1, 0, 0}, .multiplier = 1, .border_sad_mul = 1};
    float halves[] = {0, 0.5f, 0, 0.5f, 0, 0.5f}, filtered[PLANES * 2];
    COMPARE(restoration_epf_pass(row, row, PLANES, 1, last, &sigma, 1, 0, 1, halves, PLANES * 2, filtered, PLANES * 2) == RESTORATION_ACCEPTED);
    for (int plane = 0; plane < PLANES; plane++)
        COMPARE(memcmp(filtered + 2 * plane, stepped, sizeof stepped) == 0);
}

// The caller's buffers of a run on one block; `grid` is its group's grid.
typedef struct {
    float first[SAMPLES], second[SAMPLES], sigmas[1], out[SAMPLES];
} Buffers;

static const float grid[] = {1};

// Each plane zeros and one sample in the middle; other numbers in what calls write.
static Buffers buffers_with(float middle)
{
    Buffers buffers = {.sigmas = {5}};
    for (int sample = 0; sample < SAMPLES; sample++) {
        buffers.first[sample] = sample % (SIDE * SIDE) == 4 ? middle : 0;
        buffers.second[sample] = 6;
        buffers.out[sample] = 7;
    }
    return buffers;
}

static bool same_buffers(Buffers a, Buffers b)
{
    return memcmp(&a, &b, sizeof a) == 0;
}

// A whole run, one band per row, with refused calls in between, which leave every buffer as it was. `sigmas_len` is 1 where the edge filter is on.
static void run_calls(RestorationSettings settings, size_t sigmas_len, float middle, const float *expected)
{
    static const uint32_t present[GROUP] = {1, 1, 1};
    RestorationSetup setup = {.image = image, .filter = image, .planes = PLANES, .preserve_outside = 1, .settings = settings, .band_height = 1};
    Buffers b = buffers_with(middle), was = b;

    REFUSED(RestorationRunAnswer, restoration_start(setup, frame, NULL, 0, grid, 1, b.first, SAMPLES, b.second, SAMPLES, b.sigmas, sigmas_len),
        RESTORATION_WRONG_LENGTH, ZEROS(a.run) && same_buffers(b, was));
    RestorationRunAnswer answer = restoration_start(setup, frame, present, GROUP, grid, 1, b.first, SAMPLES, b.second, SAMPLES, b.sigmas, sigmas_len);
    COMPARE(answer.number == RESTORATION_ACCEPTED);
    // The block's sigma is its cell of the grid (Specification 7.6); without the edge filter none is written. The sets stay.
    was.sigmas[0] = sigmas_len == 1 ? grid[0] : was.sigmas[0];
    COMPARE(same_buffers(b, was));
    RestorationRun run = answer.run;
    COMPARE(run.bands_left == SIDE);
    REFUSED(RestorationRunAnswer, restoration_advance(run), RESTORATION_PASS_NOT_DONE, memcmp(&a.run, &run, sizeof run) == 0);
    REFUSED_NUMBER(restoration_result(run, b.first, SAMPLES, b.second, SAMPLES, b.out, SAMPLES), RESTORATION_PASS_NOT_DONE, b.out);
    for (uint32_t band = 0; band < SIDE; band++) {
        answer = restoration_band(run, b.sigmas, sigmas_len, b.first, SAMPLES, b.second, SAMPLES, band);
        COMPARE(answer.number == RESTORATION_ACCEPTED);
        run = answer.run;
        COMPARE(run.bands_left == SIDE - 1 - band);
    }
    memcpy(was.second, b.second, sizeof b.second);
    COMPARE(same_buffers(b, was));
    REFUSED(RestorationRunAnswer, restoration_band(run, b.sigmas, sigmas_len, b.first, SAMPLES, b.second, SAMPLES, 0), RESTORATION_BAND_NOT_OPEN,
        memcmp(&a.run, &run, sizeof run) == 0 && same_buffers(b, was));
    // A flag is 0 or 1.
    RestorationRun odd = run;
    odd.done[0] = 2;
    REFUSED(RestorationRunAnswer, restoration_advance(odd), RESTORATION_OUT_OF_RANGE, memcmp(&a.run, &odd, sizeof odd) == 0);
    // All bands are done, so none is left.
    odd = run;
    odd.bands_left = 1;
    REFUSED(RestorationRunAnswer, restoration_advance(odd), RESTORATION_OUT_OF_RANGE, memcmp(&a.run, &odd, sizeof odd) == 0);
    answer = restoration_advance(run);
    COMPARE(answer.number == RESTORATION_ACCEPTED && answer.run.bands_left == 0);
    COMPARE(restoration_result(answer.run, b.first, SAMPLES, b.second, SAMPLES, b.out, SAMPLES) == RESTORATION_ACCEPTED);
    for (int sample = 0; sample < SAMPLES; sample++)
        COMPARE(b.out[sample] == expected[sample % (SIDE * SIDE)]);
}

// The loupe shows the middle row of the same picture (Specification 17). One pass reads the first set and writes the second.
static void loupe_calls(RestorationSettings settings, size_t sigmas_len, float middle, const float *expected)
{
    enum { WANTED = PLANES * SIDE };
    static const uint32_t present[GROUP] = {1, 1, 1};
    RestorationLoupeSetup setup = {.whole = image, .wanted = {.top = 1, .width = SIDE, .height = 1}, .planes = PLANES, .settings = settings}, outside = setup;
    outside.wanted.left = 1;
    Buffers b[1], was = buffers_with(middle);
    b[0] = was;

    REFUSED(RestorationRegionAnswer, restoration_loupe_widened(outside), RESTORATION_WANTED_OUTSIDE, ZEROS(a.region));
    RestorationRegionAnswer widened = restoration_loupe_widened(setup);
    COMPARE(widened.number == RESTORATION_ACCEPTED && memcmp(&widened.region, &image, sizeof image) == 0);
    REFUSED_NUMBER(restoration_loupe_smooth(outside, frame, present, GROUP, grid, 1, b->first, SAMPLES, b->second, SAMPLES, b->sigmas, sigmas_len, b->out, WANTED),
        RESTORATION_WANTED_OUTSIDE, b);
    REFUSED_NUMBER(restoration_loupe_smooth(setup, frame, present, GROUP, grid, 1, b->first, SAMPLES, b->second, SAMPLES, b->sigmas, sigmas_len, b->out, SAMPLES),
        RESTORATION_WRONG_LENGTH, b);
    COMPARE(restoration_loupe_smooth(setup, frame, present, GROUP, grid, 1, b->first, SAMPLES, b->second, SAMPLES, b->sigmas, sigmas_len, b->out, WANTED)
        == RESTORATION_ACCEPTED);
    for (int sample = 0; sample < WANTED; sample++)
        was.out[sample] = expected[SIDE + sample % SIDE];
    was.sigmas[0] = sigmas_len == 1 ? grid[0] : was.sigmas[0];
    memcpy(was.second, b->second, sizeof was.second);
    COMPARE(same_buffers(b[0], was));
}

// Specification 14.6: weights 1/2, 1/4 on a single sample of 16.
static void gabor_run(void)
{
    static const float smooth[] = {1, 2, 1, 2, 4, 2, 1, 2, 1};
    RestorationSettings settings = {.gabor = {.enabled = 1}};
    for (int plane = 0; plane < PLANES; plane++) {
        settings.gabor.weights[plane][0] = 0.5f;
        settings.gabor.weights[plane][1] = 0.25f;
    }
    run_calls(settings, 0, 16, smooth);
    loupe_calls(settings, 0, 16, smooth);
}

// One iteration is step 1 (Specification 11.1). Channel scales of 0 make every distance 0 and every weight 1 (11.6, 11.7), so a sample becomes the mean of itself
// and its four neighbours, mirrored at the edges (11.8): of a single sample of 40, whole numbers.
static void epf_run(void)
{
    static const float means[] = {0, 8, 0, 8, 8, 8, 0, 8, 0};
    RestorationSettings settings = {.epf = {.iters = 1, .sigma = {.border_sad_mul = 1}}};
    run_calls(settings, 1, 40, means);
    loupe_calls(settings, 1, 40, means);
    // No frame holds a block at column 16,384, but the record is valid: 8 is not among its checks (Specification 12.8).
    RestorationRegion far = {.left = 16384, .width = SIDE, .height = SIDE};
    RestorationRun run = {.setup = {.image = far, .filter = far, .planes = PLANES, .settings = settings, .band_height = SIDE}, .bands_left = 0, .done = {1}};
    COMPARE(restoration_advance(run).number == RESTORATION_ACCEPTED);
}

// A grey picture has one plane, which has the weights of the first channel; the others are not read. Specification 14.6 again: a whole run, a pass and the
// middle row by the loupe. Another number of planes is refused, and then the lengths of sets are not compared.
static void grey(void)
{
    enum { GREY = 1, PLANE = SIDE * SIDE };
    static const float smooth[PLANE] = {1, 2, 1, 2, 4, 2, 1, 2, 1};
    RestorationSettings settings = {.gabor = {.enabled = 1, .weights = {{0.5f, 0.25f}, {NAN, NAN}, {NAN, NAN}}}};
    RestorationSetup setup = {.image = image, .filter = image, .planes = GREY, .settings = settings, .band_height = SIDE};
    RestorationLoupeSetup loupe = {.whole = image, .wanted = {.top = 1, .width = SIDE, .height = 1}, .planes = GREY, .settings = settings};
    float first[PLANE] = {[PLANE / 2] = 16}, second[PLANE] = {6}, out[PLANE] = {7};

    setup.planes = 2;
    REFUSED(RestorationRunAnswer, restoration_start(setup, frame, table, GROUP, NULL, 0, first, 0, second, PLANE, NULL, 0), RESTORATION_OUT_OF_RANGE,
        ZEROS(a.run) && second[0] == 6);
    setup.planes = GREY;
    RestorationRunAnswer answer = restoration_start(setup, frame, table, GROUP, NULL, 0, first, PLANE, second, PLANE, NULL, 0);
    answer = restoration_band(answer.run, NULL, 0, first, PLANE, second, PLANE, 0);
    answer = restoration_advance(answer.run);
    COMPARE(restoration_result(answer.run, first, PLANE, second, PLANE, out, PLANE) == RESTORATION_ACCEPTED);
    COMPARE(memcmp(out, smooth, sizeof smooth) == 0);
    out[0] = 7;
    COMPARE(restoration_gabor_pass(image, image, GREY, 0, settings.gabor, 0, SIDE, first, PLANE, out, PLANE) == RESTORATION_ACCEPTED);
    COMPARE(memcmp(out, smooth, sizeof smooth) == 0);

    loupe.planes = 4;
    REFUSED(RestorationRegionAnswer, restoration_loupe_widened(loupe), RESTORATION_OUT_OF_RANGE, ZEROS(a.region));
    REFUSED_NUMBER(restoration_loupe_smooth(loupe, frame, table, GROUP, NULL, 0, first, 0, second, 0, NULL, 0, out, PLANE), RESTORATION_OUT_OF_RANGE, out);
    loupe.planes = GREY;
    COMPARE(restoration_loupe_smooth(loupe, frame, table, GROUP, NULL, 0, first, PLANE, second, PLANE, NULL, 0, out, SIDE) == RESTORATION_ACCEPTED);
    COMPARE(memcmp(out, smooth + SIDE, SIDE * sizeof *out) == 0);
}

// Specification 16: two rectangles, the second left of the picture; a NaN with bits of its own among the samples. Then their first planes alone.
static void cuts(void)
{
    enum { RECTANGLES = 2, FIRST = PLANES * 2, SECOND = PLANES * 3, FILE_BYTES = 6 + 16 * RECTANGLES + 4 * (FIRST + SECOND) };
    static const unsigned char entry[] = {0x3E, 0, 0, 0, 0xFD, 0xFF, 0xFF, 0xFF, 7, 0, 0, 0, 1, 0, 3, 0};
    static const unsigned char nan[] = {1, 0, 0x80, 0xFF};
    RestorationCutTable cut = {.count = 0, .regions = {{.width = 2, .height = 1}, {.left = -3, .top = 7, .width = 1, .height = 3}}};
    uint32_t samples[FIRST + SECOND], back[SECOND] = {5};
    unsigned char file[FILE_BYTES] = {6};
    for (uint32_t sample = 0; sample < FIRST + SECOND; sample++)
        samples[sample] = 0xFF800001 - sample;

    REFUSED(RestorationLengthAnswer, restoration_cut_length(cut, PLANES), RESTORATION_NOT_A_CUT_FILE, a.length == 0);
    cut.count = RECTANGLES;
    COMPARE(restoration_cut_length(cut, PLANES).length == FILE_BYTES);
    REFUSED(RestorationLengthAnswer, restoration_cut_length(cut, 2), RESTORATION_OUT_OF_RANGE, a.length == 0);
    REFUSED_NUMBER(restoration_write_cut(cut, PLANES, samples, FIRST, file, FILE_BYTES), RESTORATION_WRONG_LENGTH, file);
    REFUSED_NUMBER(restoration_write_cut(cut, PLANES, samples, FIRST + SECOND, file, FILE_BYTES - 1), RESTORATION_WRONG_LENGTH, file);
    REFUSED_NUMBER(restoration_write_cut(cut, 2, samples, FIRST, file, FILE_BYTES), RESTORATION_OUT_OF_RANGE, file);
    COMPARE(restoration_write_cut(cut, PLANES, samples, FIRST + SECOND, file, FILE_BYTES) == RESTORATION_ACCEPTED);
    COMPARE(memcmp(file, "KCUT\x02\0\x26\0\0", 10) == 0 && memcmp(file + 22, entry, sizeof entry) == 0 && memcmp(file + 38, nan, sizeof nan) == 0);

    COMPARE(restoration_cut_count(file, FILE_BYTES).count == RECTANGLES);
    REFUSED(RestorationCountAnswer, restoration_cut_count(file, FILE_BYTES - 1), RESTORATION_WRONG_END, a.count == 0);
    REFUSED(RestorationCutAnswer, restoration_cut_region(file, FILE_BYTES, RECTANGLES), RESTORATION_OUT_OF_RANGE, ZEROS(a.region) && a.planes == 0);
    REFUSED(RestorationCutAnswer, restoration_read_cut(file, FILE_BYTES, 1, back, FIRST), RESTORATION_WRONG_LENGTH, ZEROS(a.region) && a.planes == 0 && back[0] == 5);
    RestorationCutAnswer answer = restoration_read_cut(file, FILE_BYTES, 1, back, SECOND);
    COMPARE(answer.number == RESTORATION_ACCEPTED && memcmp(&answer.region, &cut.regions[1], sizeof answer.region) == 0 && answer.planes == PLANES);
    COMPARE(memcmp(back, samples + FIRST, sizeof back) == 0);
    file[22] ^= 1;
    REFUSED(RestorationCutAnswer, restoration_read_cut(file, FILE_BYTES, 1, back, SECOND), RESTORATION_BAD_ENTRY, ZEROS(a.region));
    COMPARE(memcmp(back, samples + FIRST, sizeof back) == 0);

    enum { GREY_FIRST = FIRST / PLANES, GREY_SECOND = SECOND / PLANES, GREY_BYTES = 6 + 16 * RECTANGLES + 4 * (GREY_FIRST + GREY_SECOND) };
    COMPARE(restoration_cut_length(cut, 1).length == GREY_BYTES);
    COMPARE(restoration_write_cut(cut, 1, samples, GREY_FIRST + GREY_SECOND, file, GREY_BYTES) == RESTORATION_ACCEPTED);
    COMPARE(memcmp(file, "KCU1\x02\0\x26\0\0", 10) == 0);
    answer = restoration_read_cut(file, GREY_BYTES, 1, back, GREY_SECOND);
    COMPARE(answer.number == RESTORATION_ACCEPTED && memcmp(&answer.region, &cut.regions[1], sizeof answer.region) == 0 && answer.planes == 1);
    COMPARE(memcmp(back, samples + GREY_FIRST, GREY_SECOND * sizeof *back) == 0);
}

int main(void)
{
    regions();
    frames();
    headers();
    passes();
    gabor_run();
    epf_run();
    grey();
    cuts();
    printf("from C: %u refused calls, three whole runs, three rectangles by the loupe and two cut files, %u answers compared; differing: %u\n", refused, compared,
        differing);
    return differing > 0;
}
