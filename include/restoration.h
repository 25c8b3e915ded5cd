// Proved restoration filters: the C boundary of librestoration.a (`tools/library`), for C11 or C++11 on x86-64.
//
// Written by tools/header from the functions and structs of crates/: do not edit.
//
// Every function takes any numbers and returns, and its contract is proved; its comment says the contract in words. The proofs cannot see how it is
// called:
//
// - A slice is a pointer and a length, in elements. That many elements are there, aligned for their type. A null pointer has length 0.
// - A buffer that a function writes (no `const`) overlaps no other buffer of that call.
// - Nobody writes a buffer while a call has it, nor reads one that the call writes. There is no global state and nothing is allocated, so calls
//   from several threads need nothing else.
// - The floating-point environment is C's default one: rounding to nearest, subnormals neither flushed nor read as 0.
// - A call takes at most 64 KiB of stack, whatever the picture. Measured, not proved: a band takes under 45 KiB (`./bench memory`), and `tools/c`
//   makes all calls of host/c/example.c in a process that has 64 KiB of stack.
//
// A refused call answers its number, with zeros in every other field, and leaves all buffers as they are; where it is otherwise, the function's
// comment says so.

#ifndef RESTORATION_H
#define RESTORATION_H

#include <assert.h>
#include <stdbool.h>
#include <stddef.h>
#include <stdint.h>

#ifdef __cplusplus
extern "C" {
#endif

// The numbers that calls answer.
enum {
    RESTORATION_ACCEPTED = 0, // an accepted call
    RESTORATION_BITS_RUN_OUT = 1, // the header's bits run out
    RESTORATION_HALF_NOT_FINITE = 2, // a half-precision number of the header is not finite
    RESTORATION_KERNEL_NEAR_ZERO = 3, // the weights of a channel and its centre's 1 add up to nearly 0
    RESTORATION_OUT_OF_LIMITS = 4, // a side, area, left or top is out of range
    RESTORATION_NOT_INSIDE = 5, // the filter region is not inside the image region
    RESTORATION_NOT_ON_BLOCKS = 6, // the filter region's left or top is negative or no multiple of 8
    RESTORATION_WRONG_LENGTH = 7, // a slice has a wrong length, or a cut file is longer than 16,777,216 bytes
    RESTORATION_BLOCK_NOT_HELD = 8, // a block of the filter region has no group, or its group's grid does not hold it
    RESTORATION_OUT_OF_RANGE = 9, // a setting is out of range, a run record is not valid, or there is no such rectangle
    RESTORATION_BAND_NOT_OPEN = 10, // there is no such band, or it is done already, or the run is finished
    RESTORATION_PASS_NOT_DONE = 11, // an advance with a band missing or after the finish, or a result before the finish
    RESTORATION_NOT_A_CUT_FILE = 12, // the marker of a cut file is wrong, or its count of rectangles is not 1 to 64
    RESTORATION_BAD_ENTRY = 13, // an entry of a cut file has a side, area, left or top out of range, or a wrong offset
    RESTORATION_WRONG_END = 14, // a cut file ends before or after its last rectangle does
    RESTORATION_WANTED_OUTSIDE = 15, // the wanted rectangle is empty or not inside the whole filter region
};

// A rectangle of samples: the column and row of its corner, and its sides. It is empty if a side is 0.
typedef struct RestorationRegion {
    int32_t left;
    int32_t top;
    uint32_t width;
    uint32_t height;
} RestorationRegion;

// Whether a test of regions holds; false in a refused call.
typedef struct RestorationBoolAnswer {
    uint32_t number;
    bool holds;
} RestorationBoolAnswer;

// The first column right of a region or the first row below it; 0 in a refused call.
typedef struct RestorationEdgeAnswer {
    uint32_t number;
    int32_t edge;
} RestorationEdgeAnswer;

// A region made from others; zeros in a refused call.
typedef struct RestorationRegionAnswer {
    uint32_t number;
    RestorationRegion region;
} RestorationRegionAnswer;

// The fields of a frame header that determine its sizes.
typedef struct RestorationFrame {
    uint32_t width;
    uint32_t height;
    uint32_t upsampling;
    uint32_t lf_level;
    uint32_t group_size_shift;
} RestorationFrame;

// Sample sides, and the LF groups that they are divided into.
typedef struct RestorationGroupSizes {
    uint32_t sample_width;
    uint32_t sample_height;
    uint32_t group_dim;
    uint32_t group_shift;
    uint32_t groups_per_row;
    uint32_t groups_per_column;
    uint32_t num_groups;
} RestorationGroupSizes;

// The sizes of a frame.
typedef struct RestorationFrameAnswer {
    uint32_t number;
    RestorationGroupSizes sizes;
} RestorationFrameAnswer;

// The group of a column or row of blocks, and the cell in it.
typedef struct RestorationSplitAnswer {
    uint32_t number;
    uint32_t group;
    uint32_t inner;
} RestorationSplitAnswer;

// A filter region whose left and top are multiples of 8. Left and top are in blocks, width and height in samples.
typedef struct RestorationBlocks {
    uint32_t left;
    uint32_t top;
    uint32_t width;
    uint32_t height;
} RestorationBlocks;

// A half-precision reading as a struct.
typedef struct RestorationHalfAnswer {
    uint32_t number;
    float value;
    size_t next;
} RestorationHalfAnswer;

// Two weights for each of the channels X, Y and B: of the side neighbours and of the diagonal ones.
typedef struct RestorationGabor {
    bool enabled;
    float weights[3][2];
} RestorationGabor;

// A Gabor-like filter's bundle, and the next bit position.
typedef struct RestorationGaborAnswer {
    uint32_t number;
    RestorationGabor gabor;
    size_t next;
} RestorationGaborAnswer;

// The edge-preserving filter's sigma settings: `quant_mul`, the scales of steps 0 and 2, and that of block borders.
typedef struct RestorationEpfSigma {
    float quant_mul;
    float pass0_sigma_scale;
    float pass2_sigma_scale;
    float border_sad_mul;
} RestorationEpfSigma;

// The edge-preserving filter's bundle, as read from a frame header.
typedef struct RestorationEdgePreservingFilter {
    bool enabled;
    uint32_t iters;
    float sharp_lut[8];
    float channel_scale[3];
    RestorationEpfSigma sigma;
    float sigma_for_modular;
} RestorationEdgePreservingFilter;

// An edge-preserving filter's bundle, and the next bit position.
typedef struct RestorationEpfAnswer {
    uint32_t number;
    RestorationEdgePreservingFilter epf;
    size_t next;
} RestorationEpfAnswer;

// Both bundles of a frame header.
typedef struct RestorationFilter {
    RestorationGabor gabor;
    RestorationEdgePreservingFilter epf;
} RestorationFilter;

// Both bundles, and the next bit position.
typedef struct RestorationAnswer {
    uint32_t number;
    RestorationFilter filter;
    size_t next;
} RestorationAnswer;

// The mirrored place, counted from 0; 0 in a refused call.
typedef struct RestorationMirrorAnswer {
    uint32_t number;
    size_t index;
} RestorationMirrorAnswer;

// The Gabor-like filter. `enabled` is a flag: 1 is on, 0 is off. `weights` has two weights for each of the channels
// X, Y and B: of the side neighbours and of the diagonal ones. One plane has those of X.
typedef struct RestorationGaborSettings {
    uint32_t enabled;
    float weights[3][2];
} RestorationGaborSettings;

// The settings of one step of the edge-preserving filter. `multiplier` is the step's scale: `pass0_sigma_scale`, 1 or
// `pass2_sigma_scale` for steps 0, 1 or 2. `border_sad_mul` multiplies it at the borders of blocks.
typedef struct RestorationEpfStep {
    uint32_t step;
    float channel_scale[3];
    float multiplier;
    float border_sad_mul;
} RestorationEpfStep;

// The edge-preserving filter: off with 0 iterations, on with 1 to 3. One plane has the scale of X.
typedef struct RestorationEpfSettings {
    uint32_t iters;
    float channel_scale[3];
    RestorationEpfSigma sigma;
    float sigma_for_modular;
} RestorationEpfSettings;

// The settings of both filters.
typedef struct RestorationSettings {
    RestorationGaborSettings gabor;
    RestorationEpfSettings epf;
} RestorationSettings;

// The margin in samples; 0 in a refused call.
typedef struct RestorationMarginAnswer {
    uint32_t number;
    uint32_t margin;
} RestorationMarginAnswer;

// The setup of a run; no call changes it. `planes` is the number of planes of each set, 1 or 3. `preserve_outside` is
// a flag: the result region is the image region if it is 1, the filter region if it is 0. `band_height` is the number
// of rows of the result region in a band; the last band may have fewer.
typedef struct RestorationSetup {
    RestorationRegion image;
    RestorationRegion filter;
    uint32_t planes;
    uint32_t preserve_outside;
    RestorationSettings settings;
    uint32_t band_height;
} RestorationSetup;

// The record of a run. `pass` counts the completed passes. `bands_left` is the number of bands of the next pass that
// are not done, 0 if the run is finished. `done` has one flag per band of the next pass: 1 if the band is done.
typedef struct RestorationRun {
    RestorationSetup setup;
    uint32_t pass;
    uint32_t bands_left;
    uint8_t done[256];
} RestorationRun;

// The number and the record after the call. A refused band or advance returns the record that it was given, a refused
// start returns zeros.
typedef struct RestorationRunAnswer {
    uint32_t number;
    RestorationRun run;
} RestorationRunAnswer;

// What the loupe shows: the filter region of a whole picture, the wanted rectangle of it, the number of planes, 1 or 3,
// and the settings of the filters.
typedef struct RestorationLoupeSetup {
    RestorationRegion whole;
    RestorationRegion wanted;
    uint32_t planes;
    RestorationSettings settings;
} RestorationLoupeSetup;

// How many rectangles a file has; 0 in a refused call.
typedef struct RestorationCountAnswer {
    uint32_t number;
    uint32_t count;
} RestorationCountAnswer;

// The region of a rectangle, and the number of planes.
typedef struct RestorationCutAnswer {
    uint32_t number;
    RestorationRegion region;
    uint32_t planes;
} RestorationCutAnswer;

// The rectangles of a file: the first `count` of the regions.
typedef struct RestorationCutTable {
    uint32_t count;
    RestorationRegion regions[64];
} RestorationCutTable;

// The length of a file, in bytes.
typedef struct RestorationLengthAnswer {
    uint32_t number;
    size_t length;
} RestorationLengthAnswer;

// == The C boundary of regions

// Returns whether a region is empty: its width or height is 0.
// Numbers: 0; 4 if the region is outside the limits: a side over 16,384, or left or top outside -1,048,576 to
// 1,048,576. A refused call returns false.
RestorationBoolAnswer restoration_region_is_empty(RestorationRegion r);

// Returns the first column right of a region: left + width.
// Numbers: 0; 4 if the region is outside the limits (see `restoration_region_is_empty`). A refused call returns edge
// 0.
RestorationEdgeAnswer restoration_region_right(RestorationRegion r);

// Returns the first row below a region: top + height.
// Numbers: 0; 4 if the region is outside the limits (see `restoration_region_is_empty`). A refused call returns edge
// 0.
RestorationEdgeAnswer restoration_region_bottom(RestorationRegion r);

// Returns whether region `r` contains region `target`. An empty target is always contained.
// Numbers: 0; 4 if either region is outside the limits (see `restoration_region_is_empty`). A refused call returns
// false.
RestorationBoolAnswer restoration_region_contains(RestorationRegion r, RestorationRegion target);

// Moves a region by `x` columns and `y` rows.
// Numbers: 0; 4 if the region or the moved region is outside the limits (see `restoration_region_is_empty`). A
// refused call returns the region 0, 0, 0, 0.
RestorationRegionAnswer restoration_region_translate(RestorationRegion r, int32_t x, int32_t y);

// Returns the intersection of two regions. If they only touch or are apart, it is the region 0, 0, 0, 0.
// Numbers: 0; 4 if either region is outside the limits (see `restoration_region_is_empty`). A refused call returns
// the region 0, 0, 0, 0.
RestorationRegionAnswer restoration_region_intersection(RestorationRegion a, RestorationRegion b);

// Extends a region by `size` samples on each of its four sides.
// Numbers: 0; 4 if the region or the padded region is outside the limits (see `restoration_region_is_empty`). A
// refused call returns the region 0, 0, 0, 0.
RestorationRegionAnswer restoration_region_pad(RestorationRegion r, uint32_t size);

// Downsamples a region by 2^factor: left and top are divided by 2^factor and rounded toward minus infinity, right and
// bottom are divided and rounded toward plus infinity.
// Numbers: 0; 4 if the region is outside the limits (see `restoration_region_is_empty`), or if the factor is in range
// and the result is outside them; 9 if the factor is over 16. If several apply, the lowest is returned. A refused
// call returns the region 0, 0, 0, 0.
RestorationRegionAnswer restoration_region_downsample(RestorationRegion r, uint32_t factor);

// Extends a region to the smallest one around it whose left, top, right and bottom are multiples of `grid_dim`.
// Numbers: 0; 4 if the region is outside the limits (see `restoration_region_is_empty`), or if `grid_dim` is in range
// and the result is outside them; 9 if `grid_dim` is not a power of two from 1 to 8,192. If several apply, the lowest
// is returned. A refused call returns the region 0, 0, 0, 0.
RestorationRegionAnswer restoration_region_container_aligned(RestorationRegion r, uint32_t grid_dim);

// == The C boundary of frames and block sigmas

// Computes the sizes of a frame: its sample sides and the LF groups that cover them.
// A sample side is the frame's side divided by `upsampling` and then by 8 to the power of `lf_level`, each division
// rounded up. The group dimension is 128 shifted left by `group_size_shift`, in blocks; the group shift is its number
// of trailing zero bits. The groups are counted per row, per column and in total.
// Numbers: 0; 4 if a frame side is outside 1 to 16,384; 9 if `upsampling` is not 1, 2, 4 or 8, `lf_level` is over 4
// or `group_size_shift` is over 3. If several apply, the lowest is returned. A refused call returns 0 in every other
// field.
RestorationFrameAnswer restoration_group_sizes(RestorationFrame f);

// Splits a column or row of blocks into its column or row of groups, `group`, and its cell in that group, `inner`.
// Numbers: 0; 9 if `group_size_shift` is over 3. A refused call returns 0 in every other field.
RestorationSplitAnswer restoration_split_block(uint32_t block, uint32_t group_size_shift);

// Fills `sigmas` with one sigma per block (8 x 8 samples) of a filter region, row of blocks by row of blocks, if the
// edge-preserving filter is on (`on` is 1).
// A block's sigma is its cell in its group's grid. If that grid is missing, it is `sigma_for_modular`. If the filter
// is off (`on` is 0), `sigmas` must have length 0.
// `blocks` is the filter region, its left and top in blocks, its width and height in samples. `table` has three
// numbers per group of the frame: presence (1 if the group has a grid, else 0), grid width and grid height. `grids`
// has the cells of the present grids, one grid after another.
// Numbers: 0; 4 if a frame side is outside 1 to 16,384, if `blocks` has a side outside 1 to 16,384, an area over
// 16,777,216 or a left or top over 131,072, or if a present grid has a side outside 1 to 1,024; 7 if the length of
// `table`, `grids` or `sigmas` is wrong; 8 if the filter is on and a block's group is not in the frame, or its grid
// is present but lacks the block; 9 if a setting of the frame is out of range (see `restoration_group_sizes`), or a
// presence or `on` is neither 0 nor 1.
// If several apply, the lowest is returned. A check is passed over if it needs a value that is itself out of range
// (Specification 7.9, 12.6). The length of `table` is checked only if the frame's settings are in range. `table` is
// read only if the frame's sides and settings are in range and its length is right; otherwise grid sides, the length
// of `grids`, number 8 and presences are not checked. The length of `grids` is checked only if all presences are 0 or
// 1. The length of `sigmas` and number 8 are checked only if `on` is 0 or 1. Example: a table of the wrong length
// with a present grid 2,000 wide gets 7, not 4.
// A refused call leaves `sigmas` unchanged. `table` and `grids` are never changed.
uint32_t restoration_block_sigmas(
    uint32_t on,
    RestorationFrame frame,
    RestorationBlocks blocks,
    const uint32_t *table, size_t table_len,
    const float *grids, size_t grids_len,
    float sigma_for_modular,
    float *sigmas, size_t sigmas_len);

// == The C boundary of the header

// Reads 16 bits from bit position `at` on as an IEEE 754 half-precision number. The conversion to `float` is exact,
// subnormals and -0 included. Bit p of the header is bit p mod 8 of byte p / 8, counted from the least significant
// bit; the first bit of a field is its least significant. Returns the value and the next bit position.
// Numbers: 0; 7 if there are more than 65,536 bytes; otherwise 1 if the bits run out, or 2 if the exponent field is
// 31 (infinite or NaN). A refused call returns 0 in every other field. `bytes` is never changed.
RestorationHalfAnswer restoration_read_half(const uint8_t *bytes, size_t bytes_len, size_t at);

// Reads the Gabor-like filter's header bundle from bit position `at` on. It has an enabled bit; if that is set, a
// custom bit; if that is set, two half-precision weights for each of three channels. Returns whether the filter is
// on, its weights (custom or default) and the next bit position. If the filter is off, all weights are 0.
// Numbers: 0; 7 if there are more than 65,536 bytes; otherwise the first of these in bit order: 1 if the bits run
// out, 2 if a half has exponent field 31, 3 if |1 + (w0 + w1) * 4| is under 2^-23 for a channel's custom weights. A
// refused call returns 0 in every other field. `bytes` is never changed.
RestorationGaborAnswer restoration_read_gabor(const uint8_t *bytes, size_t bytes_len, size_t at);

// Reads the edge-preserving filter's header bundle of a VarDCT frame from bit position `at` on. It has 2 bits of
// iterations; if they are not 0, a custom bit with 8 sharpness values, a custom bit with 3 channel scales and 32
// ignored bits, and a custom bit with the four sigma settings. Values follow a custom bit only if it is set; each is
// a half-precision number. Returns the settings (custom or default; `sigma_for_modular` is 1) and the next bit
// position. With 0 iterations the filter is off and all its fields are 0.
// Numbers: 0; 7 if there are more than 65,536 bytes; otherwise the first of these in bit order: 1 if the bits run
// out, 2 if a half has exponent field 31. A refused call returns 0 in every other field. `bytes` is never changed.
RestorationEpfAnswer restoration_read_epf_vardct(const uint8_t *bytes, size_t bytes_len, size_t at);

// Reads the edge-preserving filter's header bundle of a Modular frame from bit position `at` on. It has 2 bits of
// iterations; if they are not 0, a custom bit with 3 channel scales and 32 ignored bits, a custom bit with three
// sigma settings (`quant_mul` keeps its default), and `sigma_for_modular`. Values follow a custom bit only if it is
// set; each is a half-precision number. Returns the settings (custom or default) and the next bit position. With 0
// iterations the filter is off and all its fields are 0.
// Numbers: 0; 7 if there are more than 65,536 bytes; otherwise the first of these in bit order: 1 if the bits run
// out, 2 if a half has exponent field 31. A refused call returns 0 in every other field. `bytes` is never changed.
RestorationEpfAnswer restoration_read_epf_modular(const uint8_t *bytes, size_t bytes_len, size_t at);

// Reads both header bundles of a VarDCT frame from bit position `at` on: the Gabor-like filter's, then the
// edge-preserving filter's, as `restoration_read_gabor` and `restoration_read_epf_vardct` do. Returns both filters
// and the next bit position.
// Numbers: 0; 7 if there are more than 65,536 bytes; otherwise the first of 1, 2 and 3 in bit order, as those
// functions return them. A refused call returns 0 in every other field. `bytes` is never changed.
RestorationAnswer restoration_read_filters_vardct(const uint8_t *bytes, size_t bytes_len, size_t at);

// Reads both header bundles of a Modular frame from bit position `at` on: the Gabor-like filter's, then the
// edge-preserving filter's, as `restoration_read_gabor` and `restoration_read_epf_modular` do. Returns both filters
// and the next bit position.
// Numbers: 0; 7 if there are more than 65,536 bytes; otherwise the first of 1, 2 and 3 in bit order, as those
// functions return them. A refused call returns 0 in every other field. `bytes` is never changed.
RestorationAnswer restoration_read_filters_modular(const uint8_t *bytes, size_t bytes_len, size_t at);

// == The C boundary of the mirror and of single passes

// Computes the mirrored index of `offset` in a row of `len` samples: the sample that a filter reads there,
// also beyond an edge. With m = offset mod (2 * len), 0 <= m < 2 * len, the index is m if m < len and
// 2 * len - 1 - m otherwise, so the edge sample is repeated.
// Numbers: 0; 9 if `len` is outside 1 to 16,384 or `offset` is outside -1,048,576 to 1,048,576. A refused call
// returns index 0.
RestorationMirrorAnswer restoration_mirror(ptrdiff_t offset, size_t len);

// Applies the Gabor-like filter to rows `from` up to, not including, `to` of the result region. The result region is
// the image region if `preserve_outside` is 1 and the filter region if it is 0.
// Reads the set `src` and writes the set `dst`. A set is `planes` planes of the image region one after another, each row
// by row without gaps: 1, or 3 for the channels X, Y and B. One plane is filtered with the weights of X. In these rows
// of the result region, `dst` gets filtered samples inside the filter region and copies of `src` outside it. All other
// samples of `dst` stay. The weights may be any floats; `settings.enabled` is ignored.
// Numbers: 0; 4 if a region is outside the limits (sides 1 to 16,384, area at most 16,777,216, left and top
// -1,048,576 to 1,048,576); 5 if the filter region is not inside the image region; 7 if the length of a set is not
// planes * width * height of the image region; 9 if `planes` is neither 1 nor 3 (then no length is checked),
// `preserve_outside` is neither 0 nor 1, `from` is over `to`, or `to` is over the number of rows of the result region.
// If several apply, the lowest is returned. A refused call leaves `dst` unchanged. `src` is never changed.
uint32_t restoration_gabor_pass(
    RestorationRegion image,
    RestorationRegion filter,
    uint32_t planes,
    uint32_t preserve_outside,
    RestorationGaborSettings settings,
    uint32_t from,
    uint32_t to,
    const float *src, size_t src_len,
    float *dst, size_t dst_len);

// Applies step 0, 1 or 2 of the edge-preserving filter to rows `from` up to, not including, `to` of the result
// region. The result region is the image region if `preserve_outside` is 1 and the filter region if it is 0.
// Reads `src` and writes `dst` as `restoration_gabor_pass` does. `sigmas` has one sigma per block (8 x 8 samples) of
// the filter region, row of blocks by row of blocks. Sigmas, scales and multipliers may be any floats. One plane has
// the scale of X.
// Numbers: 0; 4 if a region is outside the limits (see `restoration_gabor_pass`); 5 if the filter region is not
// inside the image region; 6 if its left or top is negative or not a multiple of 8; 7 if the length of a set or of
// `sigmas` is wrong; 9 if `planes` is neither 1 nor 3 (then the length of a set is not checked), the step is over 2,
// `preserve_outside` is neither 0 nor 1, `from` is over `to`, or `to` is over the number of rows of the result region.
// If several apply, the lowest is returned. A refused call leaves `dst` unchanged. `src` and `sigmas` are never changed.
uint32_t restoration_epf_pass(
    RestorationRegion image,
    RestorationRegion filter,
    uint32_t planes,
    uint32_t preserve_outside,
    RestorationEpfStep s,
    const float *sigmas, size_t sigmas_len,
    uint32_t from,
    uint32_t to,
    const float *src, size_t src_len,
    float *dst, size_t dst_len);

// == The C boundary of runs

// Returns the margin of the settings: how many samples must lie between a sample of a rectangle and each cut edge so
// that its result is the same as in the larger picture. A cut edge is an edge of the rectangle that is not an edge of
// the larger picture. The margin is 1 if the Gabor-like filter is on, plus 0, 2, 3 or 6 for 0, 1, 2 or 3 iterations
// of the edge-preserving filter.
// Numbers: 0; 9 if `gabor.enabled` is neither 0 nor 1 or `epf.iters` is over 3. A refused call returns margin 0. No
// other field of the settings is read.
RestorationMarginAnswer restoration_margin(RestorationSettings settings);

// Starts a run: checks all arguments, fills `sigmas` with the block sigmas and returns the run's record.
// `table` has three numbers per group of the frame (presence, grid width, grid height); `grids` has the cells of the
// present grids, one grid after another. `first` and `second` are two sets, each of `setup.planes` planes of the image
// region, 1 or 3; the picture is in `first`. One plane is filtered with the weights and the scale of X. `sigmas` has
// one sigma per block (8 x 8 samples) of the filter region, or length 0 if `epf.iters` is 0.
// Numbers: 0; 4 if a side, an area, a left or a top is outside the limits; 5 if the filter region is not inside the
// image region; 6 if the edge-preserving filter is on and the filter region's left or top is negative or not a
// multiple of 8; 7 if a slice has the wrong length; 8 if the edge-preserving filter is on and a block's group is not
// in the frame, or its grid is present but lacks the block; 9 if a setting is out of range: iterations over 3, a
// number of planes other than 1 and 3, a setting of the frame, a presence, `preserve_outside` or `gabor.enabled`
// neither 0 nor 1, a band height outside 1 to 16,384, or more than 256 bands.
// If several apply, the lowest is returned. A check is passed over if it needs a value that is itself out of range
// (Specification 12.6). The lengths of the sets are checked only if the number of planes is in range. Number 6, the
// length of `sigmas` and number 8 are checked only if the iterations are in range. The length of `table` is checked
// only if the frame's settings are in range. `table` is read only if the frame's sides and settings are in range and
// its length is right; otherwise grid sides, the length of `grids`, number 8 and presences are not checked. The length
// of `grids` is checked only if all presences are 0 or 1. The number of bands is checked only if `preserve_outside`
// and the band height are in range. Example: a table of the wrong length with a present grid 2,000 wide gets 7, not 4.
// An accepted call fills `sigmas` and leaves `first` and `second` unchanged. A refused call returns a record of zeros
// and leaves every slice unchanged.
RestorationRunAnswer restoration_start(
    RestorationSetup setup,
    RestorationFrame frame,
    const uint32_t *table, size_t table_len,
    const float *grids, size_t grids_len,
    float *first, size_t first_len,
    const float *second, size_t second_len,
    float *sigmas, size_t sigmas_len);

// Runs the next pass over the rows of band `k` and returns the record with that band marked done and one band fewer
// left.
// The first pass reads the set `first` and writes `second`; each advance exchanges the sets. In the band's rows of
// the result region, the written set gets filtered samples inside the filter region and copies outside it.
// Numbers: 0; 7 if the length of a set or of `sigmas` is wrong for the record's setup, unless that length depends on
// a value that is out of range (Specification 12.12); 9 if the record is not valid (Specification 12.8); 10 if `k` is
// not below the number of bands, the band is done already or the run is finished. If several apply, the lowest is
// returned.
// A record is not valid if `restoration_start` would refuse its setup with 4, 5, 6 or 9, or if no accepted calls lead
// to its `pass`, `bands_left` and `done`: the pass is past the last, a flag is over 1, a flag is not 0 at or past the
// number of bands or in a finished run, or `bands_left` is not the number of bands less those done (0 in a finished
// run).
// An accepted call leaves the set that is read, `sigmas` and the rest of the written set unchanged. A refused call
// returns the record that it was given and leaves every slice unchanged.
RestorationRunAnswer restoration_band(
    RestorationRun run,
    const float *sigmas, size_t sigmas_len,
    float *first, size_t first_len,
    float *second, size_t second_len,
    uint32_t k);

// Advances a run to its next pass when every band of the current pass is done. The two sets exchange their roles and
// no band is done. After the last pass the run is finished and no band is left.
// Numbers: 0; 9 if the record is not valid (see `restoration_band`); 11 if a band is not done or the run is finished.
// If several apply, the lowest is returned. A refused call returns the record that it was given.
RestorationRunAnswer restoration_advance(RestorationRun run);

// Copies the result of a finished run to `out`, plane by plane and row by row. It is the result region of the set
// that the last pass wrote, or of `first` if there are no passes: the image region if `preserve_outside` is 1, the
// filter region if it is 0.
// Numbers: 0; 7 if the length of a set or of `out` is wrong for the record's setup, unless that length depends on a
// value that is out of range (Specification 12.12); 9 if the record is not valid (see `restoration_band`); 11 if the
// run is not finished. If several apply, the lowest is returned.
// Both sets stay unchanged. A refused call leaves `out` unchanged too.
uint32_t restoration_result(
    RestorationRun run,
    const float *first, size_t first_len,
    const float *second, size_t second_len,
    float *out, size_t out_len);

// == The C boundary of the loupe

// Returns the widened rectangle, whose samples `restoration_loupe_smooth` needs: the wanted one, extended on each side
// by the margin of the settings, left and top then moved down to multiples of 8, and all clipped to the whole.
// Numbers, the first that applies in this order: 4 if the whole is outside the limits of a filter region, or the
// wanted rectangle has a side over 16,384, an area over 16,777,216, or a left or top outside the limits (sides of 0
// are within them); 15 if the wanted rectangle is empty or not inside the whole; 6 if `epf.iters` is 1 to 3 and the
// whole's left or top is negative or not a multiple of 8; 9 if `gabor.enabled` is neither 0 nor 1, `epf.iters` is
// over 3, or `planes` is neither 1 nor 3; 0. A refused call returns 0 in every other field.
RestorationRegionAnswer restoration_loupe_widened(RestorationLoupeSetup setup);

// Filters the wanted rectangle of a picture: writes to `out` what a run over the whole gives there, if the samples of
// the widened rectangle (`restoration_loupe_widened`) are the whole picture's and, with the edge-preserving filter on,
// so are `frame`, `table`, `grids` and `sigma_for_modular` (Specification 17.6).
// `first` has `setup.planes` planes of the widened rectangle, and `second` has the same length. `sigmas` has one sigma
// per block (8 x 8 samples) of the widened rectangle, or length 0 if `epf.iters` is 0. `table` and `grids` are as for
// `restoration_start`. `out` has as many planes of the wanted rectangle, one after another, each row by row.
// Numbers, the first that applies in this order: 4 as in `restoration_loupe_widened`, or if a frame side or a side of
// a present grid is outside the limits; 15 and 6 as there; 7 if a slice has the wrong length; 8 if the edge-preserving
// filter is on and the group of a block of the widened rectangle is not in the frame, or its grid is present but
// lacks the block; 9 if `epf.iters`, `planes`, `gabor.enabled`, a setting of the frame or a presence is out of range;
// 0.
// A check is passed over if it needs a value that is itself out of range (Specification 17.5).
// An accepted call leaves `first`, `second` and `sigmas` as a run over the widened rectangle does: its passes write to
// `second` and `first` alternately. A refused call leaves every slice unchanged.
uint32_t restoration_loupe_smooth(
    RestorationLoupeSetup setup,
    RestorationFrame frame,
    const uint32_t *table, size_t table_len,
    const float *grids, size_t grids_len,
    float *first, size_t first_len,
    float *second, size_t second_len,
    float *sigmas, size_t sigmas_len,
    float *out, size_t out_len);

// == The C boundary of cut files

// Returns the number of rectangles in a cut file, after checking all of the file but its samples.
// Numbers, the first that applies in this order: 7 if the file is longer than 16,777,216 bytes; 14 if it ends before
// the marker does; 12 if the first four bytes are neither 4B 43 55 54 (hexadecimal; three planes) nor 4B 43 55 31 (one
// plane); 14 if it ends before the count does; 12 if the count is not 1 to 64; for each entry in turn, 14 if the file
// ends before the entry does, and 13 if a side is outside 1 to 16,384, the area over 16,777,216, or left or top outside
// -1,048,576 to 1,048,576, or if its offset is not the end of what precedes its body; 14 if the file does not end where
// its last body does; 0.
// A refused call returns 0 in every other field.
RestorationCountAnswer restoration_cut_count(const uint8_t *file, size_t file_len);

// Returns the region of rectangle `k`, counted from 0, of a cut file, and the number of planes, 1 or 3.
// Numbers: those of `restoration_cut_count`; then 9 if `k` is not below the number of rectangles. A refused call
// returns 0 in every other field.
RestorationCutAnswer restoration_cut_region(const uint8_t *file, size_t file_len, uint32_t k);

// Returns the region of rectangle `k`, counted from 0, of a cut file, and the number of planes, 1 or 3, and stores its
// samples: the bits of planes x width x height binary32 numbers, plane after plane, row after row.
// Numbers: those of `restoration_cut_region`; then 7 if `samples` does not have exactly that length. A refused call
// returns 0 in every other field and leaves `samples` unchanged.
RestorationCutAnswer restoration_read_cut(
    const uint8_t *file, size_t file_len,
    uint32_t k,
    uint32_t *samples, size_t samples_len);

// Returns the length, in bytes, of the cut file with the first `count` regions of a table and this number of planes.
// Numbers, the first that applies in this order: 12 if the count is not 1 to 64; 4 if one of these regions has a side
// outside 1 to 16,384, an area over 16,777,216, or a left or top outside -1,048,576 to 1,048,576; 7 if `planes` is 1 or
// 3 and the file would be longer than 16,777,216 bytes; 9 if `planes` is not 1 or 3; 0. A refused call returns 0 in
// every other field.
RestorationLengthAnswer restoration_cut_length(RestorationCutTable table, uint32_t planes);

// Writes the cut file with the first `count` regions of a table and their samples: the bits of binary32 numbers,
// rectangle after rectangle, each plane after plane, row after row.
// Numbers, the first that applies in this order: 12 and 4, those of `restoration_cut_length`; 7 if `file` is longer than
// 16,777,216 bytes, or if `planes` is 1 or 3 and the cut file would be longer, or `samples` does not have exactly the
// samples of these rectangles, or `file` exactly the bytes of the cut file; 9 if `planes` is not 1 or 3; 0. A refused
// call leaves `file` unchanged.
uint32_t restoration_write_cut(
    RestorationCutTable table,
    uint32_t planes,
    const uint32_t *samples, size_t samples_len,
    uint8_t *file, size_t file_len);

// == Sizes and offsets, as the library has them

static_assert(sizeof(RestorationRegion) == 16, "RestorationRegion");
static_assert(offsetof(RestorationRegion, left) == 0, "left");
static_assert(offsetof(RestorationRegion, top) == 4, "top");
static_assert(offsetof(RestorationRegion, width) == 8, "width");
static_assert(offsetof(RestorationRegion, height) == 12, "height");
static_assert(sizeof(RestorationBoolAnswer) == 8, "RestorationBoolAnswer");
static_assert(offsetof(RestorationBoolAnswer, number) == 0, "number");
static_assert(offsetof(RestorationBoolAnswer, holds) == 4, "holds");
static_assert(sizeof(RestorationEdgeAnswer) == 8, "RestorationEdgeAnswer");
static_assert(offsetof(RestorationEdgeAnswer, number) == 0, "number");
static_assert(offsetof(RestorationEdgeAnswer, edge) == 4, "edge");
static_assert(sizeof(RestorationRegionAnswer) == 20, "RestorationRegionAnswer");
static_assert(offsetof(RestorationRegionAnswer, number) == 0, "number");
static_assert(offsetof(RestorationRegionAnswer, region) == 4, "region");
static_assert(sizeof(RestorationFrame) == 20, "RestorationFrame");
static_assert(offsetof(RestorationFrame, width) == 0, "width");
static_assert(offsetof(RestorationFrame, height) == 4, "height");
static_assert(offsetof(RestorationFrame, upsampling) == 8, "upsampling");
static_assert(offsetof(RestorationFrame, lf_level) == 12, "lf_level");
static_assert(offsetof(RestorationFrame, group_size_shift) == 16, "group_size_shift");
static_assert(sizeof(RestorationGroupSizes) == 28, "RestorationGroupSizes");
static_assert(offsetof(RestorationGroupSizes, sample_width) == 0, "sample_width");
static_assert(offsetof(RestorationGroupSizes, sample_height) == 4, "sample_height");
static_assert(offsetof(RestorationGroupSizes, group_dim) == 8, "group_dim");
static_assert(offsetof(RestorationGroupSizes, group_shift) == 12, "group_shift");
static_assert(offsetof(RestorationGroupSizes, groups_per_row) == 16, "groups_per_row");
static_assert(offsetof(RestorationGroupSizes, groups_per_column) == 20, "groups_per_column");
static_assert(offsetof(RestorationGroupSizes, num_groups) == 24, "num_groups");
static_assert(sizeof(RestorationFrameAnswer) == 32, "RestorationFrameAnswer");
static_assert(offsetof(RestorationFrameAnswer, number) == 0, "number");
static_assert(offsetof(RestorationFrameAnswer, sizes) == 4, "sizes");
static_assert(sizeof(RestorationSplitAnswer) == 12, "RestorationSplitAnswer");
static_assert(offsetof(RestorationSplitAnswer, number) == 0, "number");
static_assert(offsetof(RestorationSplitAnswer, group) == 4, "group");
static_assert(offsetof(RestorationSplitAnswer, inner) == 8, "inner");
static_assert(sizeof(RestorationBlocks) == 16, "RestorationBlocks");
static_assert(offsetof(RestorationBlocks, left) == 0, "left");
static_assert(offsetof(RestorationBlocks, top) == 4, "top");
static_assert(offsetof(RestorationBlocks, width) == 8, "width");
static_assert(offsetof(RestorationBlocks, height) == 12, "height");
static_assert(sizeof(RestorationHalfAnswer) == 16, "RestorationHalfAnswer");
static_assert(offsetof(RestorationHalfAnswer, number) == 0, "number");
static_assert(offsetof(RestorationHalfAnswer, value) == 4, "value");
static_assert(offsetof(RestorationHalfAnswer, next) == 8, "next");
static_assert(sizeof(RestorationGabor) == 28, "RestorationGabor");
static_assert(offsetof(RestorationGabor, enabled) == 0, "enabled");
static_assert(offsetof(RestorationGabor, weights) == 4, "weights");
static_assert(sizeof(RestorationGaborAnswer) == 40, "RestorationGaborAnswer");
static_assert(offsetof(RestorationGaborAnswer, number) == 0, "number");
static_assert(offsetof(RestorationGaborAnswer, gabor) == 4, "gabor");
static_assert(offsetof(RestorationGaborAnswer, next) == 32, "next");
static_assert(sizeof(RestorationEpfSigma) == 16, "RestorationEpfSigma");
static_assert(offsetof(RestorationEpfSigma, quant_mul) == 0, "quant_mul");
static_assert(offsetof(RestorationEpfSigma, pass0_sigma_scale) == 4, "pass0_sigma_scale");
static_assert(offsetof(RestorationEpfSigma, pass2_sigma_scale) == 8, "pass2_sigma_scale");
static_assert(offsetof(RestorationEpfSigma, border_sad_mul) == 12, "border_sad_mul");
static_assert(sizeof(RestorationEdgePreservingFilter) == 72, "RestorationEdgePreservingFilter");
static_assert(offsetof(RestorationEdgePreservingFilter, enabled) == 0, "enabled");
static_assert(offsetof(RestorationEdgePreservingFilter, iters) == 4, "iters");
static_assert(offsetof(RestorationEdgePreservingFilter, sharp_lut) == 8, "sharp_lut");
static_assert(offsetof(RestorationEdgePreservingFilter, channel_scale) == 40, "channel_scale");
static_assert(offsetof(RestorationEdgePreservingFilter, sigma) == 52, "sigma");
static_assert(offsetof(RestorationEdgePreservingFilter, sigma_for_modular) == 68, "sigma_for_modular");
static_assert(sizeof(RestorationEpfAnswer) == 88, "RestorationEpfAnswer");
static_assert(offsetof(RestorationEpfAnswer, number) == 0, "number");
static_assert(offsetof(RestorationEpfAnswer, epf) == 4, "epf");
static_assert(offsetof(RestorationEpfAnswer, next) == 80, "next");
static_assert(sizeof(RestorationFilter) == 100, "RestorationFilter");
static_assert(offsetof(RestorationFilter, gabor) == 0, "gabor");
static_assert(offsetof(RestorationFilter, epf) == 28, "epf");
static_assert(sizeof(RestorationAnswer) == 112, "RestorationAnswer");
static_assert(offsetof(RestorationAnswer, number) == 0, "number");
static_assert(offsetof(RestorationAnswer, filter) == 4, "filter");
static_assert(offsetof(RestorationAnswer, next) == 104, "next");
static_assert(sizeof(RestorationMirrorAnswer) == 16, "RestorationMirrorAnswer");
static_assert(offsetof(RestorationMirrorAnswer, number) == 0, "number");
static_assert(offsetof(RestorationMirrorAnswer, index) == 8, "index");
static_assert(sizeof(RestorationGaborSettings) == 28, "RestorationGaborSettings");
static_assert(offsetof(RestorationGaborSettings, enabled) == 0, "enabled");
static_assert(offsetof(RestorationGaborSettings, weights) == 4, "weights");
static_assert(sizeof(RestorationEpfStep) == 24, "RestorationEpfStep");
static_assert(offsetof(RestorationEpfStep, step) == 0, "step");
static_assert(offsetof(RestorationEpfStep, channel_scale) == 4, "channel_scale");
static_assert(offsetof(RestorationEpfStep, multiplier) == 16, "multiplier");
static_assert(offsetof(RestorationEpfStep, border_sad_mul) == 20, "border_sad_mul");
static_assert(sizeof(RestorationEpfSettings) == 36, "RestorationEpfSettings");
static_assert(offsetof(RestorationEpfSettings, iters) == 0, "iters");
static_assert(offsetof(RestorationEpfSettings, channel_scale) == 4, "channel_scale");
static_assert(offsetof(RestorationEpfSettings, sigma) == 16, "sigma");
static_assert(offsetof(RestorationEpfSettings, sigma_for_modular) == 32, "sigma_for_modular");
static_assert(sizeof(RestorationSettings) == 64, "RestorationSettings");
static_assert(offsetof(RestorationSettings, gabor) == 0, "gabor");
static_assert(offsetof(RestorationSettings, epf) == 28, "epf");
static_assert(sizeof(RestorationMarginAnswer) == 8, "RestorationMarginAnswer");
static_assert(offsetof(RestorationMarginAnswer, number) == 0, "number");
static_assert(offsetof(RestorationMarginAnswer, margin) == 4, "margin");
static_assert(sizeof(RestorationSetup) == 108, "RestorationSetup");
static_assert(offsetof(RestorationSetup, image) == 0, "image");
static_assert(offsetof(RestorationSetup, filter) == 16, "filter");
static_assert(offsetof(RestorationSetup, planes) == 32, "planes");
static_assert(offsetof(RestorationSetup, preserve_outside) == 36, "preserve_outside");
static_assert(offsetof(RestorationSetup, settings) == 40, "settings");
static_assert(offsetof(RestorationSetup, band_height) == 104, "band_height");
static_assert(sizeof(RestorationRun) == 372, "RestorationRun");
static_assert(offsetof(RestorationRun, setup) == 0, "setup");
static_assert(offsetof(RestorationRun, pass) == 108, "pass");
static_assert(offsetof(RestorationRun, bands_left) == 112, "bands_left");
static_assert(offsetof(RestorationRun, done) == 116, "done");
static_assert(sizeof(RestorationRunAnswer) == 376, "RestorationRunAnswer");
static_assert(offsetof(RestorationRunAnswer, number) == 0, "number");
static_assert(offsetof(RestorationRunAnswer, run) == 4, "run");
static_assert(sizeof(RestorationLoupeSetup) == 100, "RestorationLoupeSetup");
static_assert(offsetof(RestorationLoupeSetup, whole) == 0, "whole");
static_assert(offsetof(RestorationLoupeSetup, wanted) == 16, "wanted");
static_assert(offsetof(RestorationLoupeSetup, planes) == 32, "planes");
static_assert(offsetof(RestorationLoupeSetup, settings) == 36, "settings");
static_assert(sizeof(RestorationCountAnswer) == 8, "RestorationCountAnswer");
static_assert(offsetof(RestorationCountAnswer, number) == 0, "number");
static_assert(offsetof(RestorationCountAnswer, count) == 4, "count");
static_assert(sizeof(RestorationCutAnswer) == 24, "RestorationCutAnswer");
static_assert(offsetof(RestorationCutAnswer, number) == 0, "number");
static_assert(offsetof(RestorationCutAnswer, region) == 4, "region");
static_assert(offsetof(RestorationCutAnswer, planes) == 20, "planes");
static_assert(sizeof(RestorationCutTable) == 1028, "RestorationCutTable");
static_assert(offsetof(RestorationCutTable, count) == 0, "count");
static_assert(offsetof(RestorationCutTable, regions) == 4, "regions");
static_assert(sizeof(RestorationLengthAnswer) == 16, "RestorationLengthAnswer");
static_assert(offsetof(RestorationLengthAnswer, number) == 0, "number");
static_assert(offsetof(RestorationLengthAnswer, length) == 8, "length");

#ifdef __cplusplus
}
#endif
#endif
