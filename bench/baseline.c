// The same work as the library, in plain C: the same loops, and what the library refuses is refused here.
#include "baseline.h"

#include <stdbool.h>
#include <string.h>

static size_t least(size_t a, size_t b) { return a < b ? a : b; }

// Where row `i` begins in a list of `length` cells.
static size_t row_start(size_t length, size_t width, size_t i) {
    size_t from;
    return __builtin_mul_overflow(i, width, &from) ? length : least(from, length);
}

// How many cells row `i` has there.
static size_t row_length(size_t length, size_t width, size_t i) {
    return least(length - row_start(length, width, i), width);
}

static void open_histogram(struct histogram *h, uint16_t levels) {
    memset(h, 0, sizeof *h);
    h->levels = levels < 2 || levels > MOST_LEVELS ? 2 : levels;
}

// Without a way out of the loop, so that the compiler takes many pixels at a time.
static bool all_levels(uint16_t levels, const uint16_t *row, size_t pixels) {
    bool all = true;
    for (size_t i = 0; i < pixels; i++) all &= row[i] < levels;
    return all;
}

// The row is looked through before any of it is counted, so that it is counted as a whole or not at all.
static bool count_row(struct histogram *h, const uint16_t *row, size_t pixels) {
    if (!all_levels(h->levels, row, pixels)) return false;
    if (pixels > UINT32_MAX - h->total) return false;
    for (size_t i = 0; i < pixels; i++) h->pixels[row[i]]++;
    h->total += (uint32_t)pixels;
    return true;
}

static void count_scan(struct histogram *h, uint16_t levels, size_t rows, size_t width,
                       const uint16_t *scan, size_t pixels) {
    open_histogram(h, levels);
    for (size_t i = 0; i < rows; i++)
        count_row(h, scan + row_start(pixels, width, i), row_length(pixels, width, i));
}

uint32_t base_count(uint16_t levels, size_t rows, size_t width, const uint16_t *scan, size_t pixels,
                    uint32_t *at, size_t places) {
    struct histogram h;
    count_scan(&h, levels, rows, width, scan, pixels);
    memcpy(at, h.pixels, least(places, MOST_LEVELS) * sizeof *at);
    return h.total;
}

// A table, with the bin of each level for look-up.
struct table {
    uint16_t levels;
    uint16_t bins;
    uint16_t representatives[MOST_BINS];
    uint8_t of_level[MOST_LEVELS];
};

// Not inlined: a drawing's table would else be left out, as nothing reads it.
static __attribute__((noinline)) bool make_table(struct table *t, uint16_t levels, const uint16_t *bounds, size_t bins,
                       const uint16_t *representatives, size_t greys) {
    if (levels < 2 || levels > MOST_LEVELS || bins < 1 || bins > MOST_BINS || greys != bins)
        return false;
    for (size_t i = 1; i < bins; i++)
        if (bounds[i - 1] >= bounds[i]) return false;
    if (bounds[bins - 1] != levels - 1) return false;
    for (size_t i = 0; i < bins; i++)
        if (representatives[i] >= levels) return false;
    t->levels = levels;
    t->bins = (uint16_t)bins;
    memcpy(t->representatives, representatives, bins * sizeof *representatives);
    memset(t->representatives + bins, 0, (MOST_BINS - bins) * sizeof *representatives);
    for (size_t level = 0, bin = 0; level < levels; level++) {
        t->of_level[level] = (uint8_t)bin;
        if (bounds[bin] <= level) bin++;
    }
    return true;
}

// The representative and the price of the levels from a to b.
struct answer {
    uint16_t representative;
    uint64_t price;
};

static struct answer price_by_mean(const struct histogram *h, uint16_t a, uint16_t b) {
    uint64_t pixels = 0, levels = 0, squares = 0;
    for (size_t k = a; k <= b; k++) {
        uint64_t n = h->pixels[k];
        pixels += n;
        levels += n * k;
        squares += n * k * k;
    }
    uint64_t r = (2 * levels + pixels) / (2 * pixels);
    return (struct answer){(uint16_t)r, squares + pixels * (r * r) - 2 * (r * levels)};
}

static uint64_t join(uint64_t a, uint64_t b) {
    uint64_t sum;
    return __builtin_add_overflow(a, b, &sum) ? UINT64_MAX : sum;
}

static struct answer price_by_trial(const struct histogram *h, uint16_t a, uint16_t b) {
    uint16_t low = a, high = b;
    while (h->pixels[low] == 0) low++;
    while (h->pixels[high] == 0) high--;
    struct answer best = {low, UINT64_MAX};
    for (uint32_t r = low; r <= high; r++) {
        uint64_t tally = 0;
        for (uint32_t k = a; k <= b; k++) {
            uint32_t apart = k < r ? r - k : k - r;
            if (h->pixels[k] > 0) tally = join(tally, (uint64_t)h->pixels[k] * (apart * apart));
        }
        if (tally <= best.price) best = (struct answer){(uint16_t)r, tally};
    }
    return best;
}

typedef struct answer pricer(const struct histogram *, uint16_t, uint16_t);

// Least tallies by number of runs: cell j * bins + m is that of the first j + 1 counted levels in m + 1 runs,
// and the link beside it is where the last run starts. Of equal tallies the shortest last run stays.
static inline __attribute__((always_inline)) void fill(pricer *price, const struct histogram *h,
                                                       const uint16_t *places, size_t counted,
                                                       size_t bins, uint64_t *restrict tallies,
                                                       uint16_t *restrict links) {
    size_t slack = counted - bins;
    for (size_t end = 0; end < counted; end++) {
        size_t from = end > slack + 1 ? end - slack : 1;
        size_t limit = end + 1 == counted ? bins : bins - 1;
        size_t lowest = end > slack ? end - slack : 0;
        for (size_t start = end + 1; start-- > lowest;) {
            uint64_t cost = price(h, places[start], places[end]).price;
            if (start == 0) {
                tallies[end * bins] = cost;
                links[end * bins] = 0;
                continue;
            }
            size_t to = least(limit, start + 1);
            uint64_t *row = tallies + end * bins;
            const uint64_t *before = tallies + (start - 1) * bins;
            for (size_t m = from; m < to; m++) {
                uint64_t joined = join(cost, before[m - 1]);
                if (start == end || joined < row[m]) {
                    row[m] = joined;
                    links[end * bins + m] = (uint16_t)start;
                }
            }
        }
    }
}

static inline __attribute__((always_inline)) struct drawn
draw(pricer *price, struct table *table, uint16_t levels, size_t rows, size_t width, const uint16_t *scan, size_t pixels,
     uint16_t most, uint64_t *tallies, size_t tally_cells, uint16_t *links, size_t link_cells,
     uint16_t *bounds, size_t bound_cells, uint16_t *representatives, size_t representative_cells) {
    struct histogram h;
    count_scan(&h, levels, rows, width, scan, pixels);
    if (most < 1 || most > MOST_BINS) return (struct drawn){.refusal = 5};
    if (h.total == 0) return (struct drawn){.refusal = 6};
    uint16_t places[MOST_LEVELS];
    size_t counted = 0;
    for (size_t level = 0; level < h.levels; level++)
        if (h.pixels[level] > 0) places[counted++] = (uint16_t)level;
    size_t bins = least(most, counted);
    if (least(tally_cells, link_cells) < counted * bins) return (struct drawn){.refusal = 7};

    fill(price, &h, places, counted, bins, tallies, links);

    uint16_t bound_of[MOST_BINS] = {0}, grey_of[MOST_BINS] = {0};
    size_t end = counted;
    for (size_t bin = bins; bin-- > 0;) {
        size_t start = links[(end - 1) * bins + bin];
        bound_of[bin] = places[end - 1];
        grey_of[bin] = price(&h, places[start], places[end - 1]).representative;
        end = start;
    }
    bound_of[bins - 1] = h.levels - 1;
    make_table(table, h.levels, bound_of, bins, grey_of, bins);
    memcpy(bounds, bound_of, least(bound_cells, MOST_BINS) * sizeof *bounds);
    memcpy(representatives, grey_of, least(representative_cells, MOST_BINS) * sizeof *representatives);
    uint64_t c = counted, b = bins, rest = c - b + 1;
    return (struct drawn){
        .bins = (uint16_t)bins,
        .tally = tallies[counted * bins - 1],
        .priced = (c * c + c - b * b + b) / 2,
        .compared = b < 2 ? b : (b - 2) * rest * (rest + 1) / 2 + 2 * rest,
    };
}

struct drawn base_draw(uint16_t levels, size_t rows, size_t width, const uint16_t *scan, size_t pixels,
                       uint16_t most, uint64_t *tallies, size_t tally_cells, uint16_t *links,
                       size_t link_cells, uint16_t *bounds, size_t bound_cells,
                       uint16_t *representatives, size_t representative_cells) {
    struct table table;
    return draw(price_by_mean, &table, levels, rows, width, scan, pixels, most, tallies, tally_cells, links,
                link_cells, bounds, bound_cells, representatives, representative_cells);
}

struct drawn base_draw_by_trial(uint16_t levels, size_t rows, size_t width, const uint16_t *scan,
                                size_t pixels, uint16_t most, uint64_t *tallies, size_t tally_cells,
                                uint16_t *links, size_t link_cells, uint16_t *bounds,
                                size_t bound_cells, uint16_t *representatives,
                                size_t representative_cells) {
    struct table table;
    return draw(price_by_trial, &table, levels, rows, width, scan, pixels, most, tallies, tally_cells, links,
                link_cells, bounds, bound_cells, representatives, representative_cells);
}

static bool index_row(const struct table *t, const uint16_t *restrict row, size_t pixels,
                      uint8_t *restrict out, size_t room) {
    if (!all_levels(t->levels, row, pixels) || room < pixels) return false;
    for (size_t i = 0; i < pixels; i++) out[i] = t->of_level[row[i]];
    return true;
}

static bool show_row(const struct table *t, const uint8_t *restrict indices, size_t pixels,
                     uint16_t *restrict out, size_t room) {
    for (size_t i = 0; i < pixels; i++)
        if (indices[i] >= t->bins) return false;
    if (room < pixels) return false;
    for (size_t i = 0; i < pixels; i++) out[i] = t->representatives[indices[i]];
    return true;
}

size_t base_index(uint16_t levels, const uint16_t *bounds, size_t bound_cells,
                  const uint16_t *representatives, size_t representative_cells, size_t rows,
                  size_t width, const uint16_t *scan, size_t pixels, uint8_t *out, size_t room) {
    struct table t;
    if (!make_table(&t, levels, bounds, bound_cells, representatives, representative_cells)) return 0;
    for (size_t i = 0; i < rows; i++)
        if (!index_row(&t, scan + row_start(pixels, width, i), row_length(pixels, width, i),
                       out + row_start(room, width, i), row_length(room, width, i)))
            return i;
    return rows;
}

size_t base_show(uint16_t levels, const uint16_t *bounds, size_t bound_cells,
                 const uint16_t *representatives, size_t representative_cells, size_t rows,
                 size_t width, const uint8_t *indices, size_t pixels, uint16_t *out, size_t room) {
    struct table t;
    if (!make_table(&t, levels, bounds, bound_cells, representatives, representative_cells)) return 0;
    for (size_t i = 0; i < rows; i++)
        if (!show_row(&t, indices + row_start(pixels, width, i), row_length(pixels, width, i),
                      out + row_start(room, width, i), row_length(room, width, i)))
            return i;
    return rows;
}

// Numbers go most significant byte first.
static uint8_t *put(uint8_t *to, uint32_t number, int bytes) {
    for (int shift = 8 * (bytes - 1); shift >= 0; shift -= 8) *to++ = (uint8_t)(number >> shift);
    return to;
}

size_t base_write(const uint32_t *at, size_t levels, const uint16_t *bounds, size_t bound_cells,
                  const uint16_t *representatives, size_t representative_cells, uint8_t *out, size_t room) {
    if (levels < 2 || levels > MOST_LEVELS) return 0;
    uint64_t total = 0;
    size_t counted = 0;
    for (size_t k = 0; k < levels; k++) {
        total += at[k];
        counted += at[k] > 0;
    }
    struct table t;
    if (total > UINT32_MAX || !make_table(&t, (uint16_t)levels, bounds, bound_cells, representatives, representative_cells))
        return 0;
    size_t needed = 7 + 6 * counted + 4 * (size_t)t.bins;
    if (room < needed) return 0;
    uint8_t *to = put(put(put(out, 5, 1), (uint32_t)levels, 2), (uint32_t)counted, 2);
    for (size_t k = 0; k < levels; k++)
        if (at[k] > 0) to = put(put(to, (uint32_t)k, 2), at[k], 4);
    to = put(to, t.bins, 2);
    for (size_t i = 0; i < t.bins; i++) to = put(put(to, bounds[i], 2), representatives[i], 2);
    return needed;
}

struct reader {
    const uint8_t *at;
    size_t left;
};

static bool has(const struct reader *r, size_t bytes) { return r->left >= bytes; }

static uint32_t take(struct reader *r, size_t bytes) {
    uint32_t number = 0;
    for (size_t i = 0; i < bytes; i++) number = number << 8 | *r->at++;
    r->left -= bytes;
    return number;
}

enum { UNKNOWN_EDITION = 12, ENDS_EARLY = 13, RULE_BROKEN = 14, BYTES_LEFT_OVER = 15 };

static uint16_t read_levels(struct reader *r, struct histogram *h) {
    if (!has(r, 1)) return ENDS_EARLY;
    if (take(r, 1) != 5) return UNKNOWN_EDITION;
    if (!has(r, 2)) return ENDS_EARLY;
    uint32_t levels = take(r, 2);
    if (levels < 2 || levels > MOST_LEVELS) return RULE_BROKEN;
    open_histogram(h, (uint16_t)levels);
    if (!has(r, 2)) return ENDS_EARLY;
    uint32_t counted = take(r, 2);
    if (counted > levels) return RULE_BROKEN;
    for (uint32_t i = 0, lowest = 0; i < counted; i++) {
        if (!has(r, 6)) return ENDS_EARLY;
        uint32_t level = take(r, 2), pixels = take(r, 4);
        if (level < lowest || level >= levels || pixels == 0 || pixels > UINT32_MAX - h->total) return RULE_BROKEN;
        h->pixels[level] = pixels;
        h->total += pixels;
        lowest = level + 1;
    }
    return 0;
}

static uint16_t read_bins(struct reader *r, uint32_t levels, uint16_t *bounds, uint16_t *greys, size_t *bins) {
    if (!has(r, 2)) return ENDS_EARLY;
    uint32_t count = take(r, 2);
    if (count < 1 || count > MOST_BINS || count > levels) return RULE_BROKEN;
    for (uint32_t i = 0, lowest = 0; i < count; i++) {
        if (!has(r, 4)) return ENDS_EARLY;
        uint32_t bound = take(r, 2), grey = take(r, 2);
        if (bound < lowest || bound >= levels || grey >= levels || (i + 1 == count && bound + 1 != levels)) return RULE_BROKEN;
        bounds[i] = (uint16_t)bound;
        greys[i] = (uint16_t)grey;
        lowest = bound + 1;
    }
    *bins = count;
    return r->left > 0 ? BYTES_LEFT_OVER : 0;
}

uint16_t base_read(const uint8_t *file, size_t length, uint32_t *at, size_t places, uint16_t *bounds,
                   size_t bound_cells, uint16_t *representatives, size_t representative_cells) {
    struct reader r = {file, length};
    struct histogram h;
    struct table t;
    uint16_t bound_of[MOST_BINS] = {0}, grey_of[MOST_BINS] = {0};
    size_t bins;
    uint16_t fault = read_levels(&r, &h);
    if (fault == 0) fault = read_bins(&r, h.levels, bound_of, grey_of, &bins);
    if (fault != 0) return fault;
    make_table(&t, h.levels, bound_of, bins, grey_of, bins);
    memcpy(at, h.pixels, least(places, MOST_LEVELS) * sizeof *at);
    memcpy(bounds, bound_of, least(bound_cells, MOST_BINS) * sizeof *bounds);
    memcpy(representatives, t.representatives, least(representative_cells, MOST_BINS) * sizeof *representatives);
    return 0;
}
