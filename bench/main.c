// Measures the library beside the baseline: same inputs, results compared before anything is timed, runs taken in turn.
#define _POSIX_C_SOURCE 200809L
#include "baseline.h"

#include <math.h>
#include <stdbool.h>
#include <stdio.h>
#include <stdlib.h>
#include <string.h>
#include <sys/resource.h>
#include <time.h>

// The library, as crates/ffi_c exports it.
uint32_t slip_count(uint16_t, size_t, size_t, const uint16_t *, size_t, uint32_t *, size_t);
struct drawn slip_draw(uint16_t, size_t, size_t, const uint16_t *, size_t, uint16_t, uint64_t *, size_t,
                       uint16_t *, size_t, uint16_t *, size_t, uint16_t *, size_t);
struct drawn slip_draw_by_trial(uint16_t, size_t, size_t, const uint16_t *, size_t, uint16_t,
                                uint64_t *, size_t, uint16_t *, size_t, uint16_t *, size_t, uint16_t *,
                                size_t);
size_t slip_index(uint16_t, const uint16_t *, size_t, const uint16_t *, size_t, size_t, size_t,
                  const uint16_t *, size_t, uint8_t *, size_t);
size_t slip_show(uint16_t, const uint16_t *, size_t, const uint16_t *, size_t, size_t, size_t,
                 const uint8_t *, size_t, uint16_t *, size_t);
size_t slip_write(const uint32_t *, size_t, const uint16_t *, size_t, const uint16_t *, size_t, uint8_t *, size_t);
uint16_t slip_read(const uint8_t *, size_t, uint32_t *, size_t, uint16_t *, size_t, uint16_t *, size_t);

typedef struct drawn draws(uint16_t, size_t, size_t, const uint16_t *, size_t, uint16_t, uint64_t *,
                           size_t, uint16_t *, size_t, uint16_t *, size_t, uint16_t *, size_t);

static void fail(const char *what) {
    fprintf(stderr, "bench: %s\n", what);
    exit(1);
}

static void *list(size_t cells, size_t size) {
    void *p = calloc(cells ? cells : 1, size);
    if (!p) fail("out of memory");
    return p;
}

// --- inputs

static uint64_t seed = 1;

static uint32_t chance(void) {
    seed ^= seed << 13;
    seed ^= seed >> 7;
    seed ^= seed << 17;
    return (uint32_t)(seed >> 32);
}

struct scan {
    const char *name;
    uint16_t levels;
    size_t rows, width, pixels;
    uint16_t *at;
};

// Paper with shading and noise, and dark strokes on it: about two million pixels at 1,024 levels.
static struct scan slip(size_t rows, size_t width) {
    struct scan s = {"slip", 1024, rows, width, rows * width, list(rows * width, sizeof(uint16_t))};
    for (size_t y = 0; y < rows; y++)
        for (size_t x = 0; x < width; x++) {
            int shade = 860 - (int)(120 * y / rows) + (int)(40 * x / width);
            bool stroke = y % 40 < 14 && (x / 9 + (y / 40) * 7) % 5 < 2;
            int grey = stroke ? 140 + (int)(60 * x / width) : shade;
            for (int i = 0; i < 4; i++) grey += (int)(chance() % (stroke ? 65 : 49)) - (stroke ? 32 : 24);
            if (chance() % 997 == 0) grey = (int)(chance() % 1024);
            s.at[y * width + x] = (uint16_t)(grey < 0 ? 0 : grey > 1023 ? 1023 : grey);
        }
    return s;
}

// Each of `levels` levels at least once, and else any of them.
static struct scan flat(uint16_t levels, size_t rows, size_t width) {
    struct scan s = {"flat", levels, rows, width, rows * width, list(rows * width, sizeof(uint16_t))};
    for (size_t i = 0; i < s.pixels; i++)
        s.at[i] = (uint16_t)(i < levels ? i : chance() % levels);
    return s;
}

static uint32_t *pixels_of(const struct scan *s) {
    uint32_t *at = list(MOST_LEVELS + 1, sizeof *at);
    base_count(s->levels, s->rows, s->width, s->at, s->pixels, at, MOST_LEVELS);
    return at;
}

// --- timing

static double seconds(void) {
    struct timespec t;
    clock_gettime(CLOCK_PROCESS_CPUTIME_ID, &t);
    return (double)t.tv_sec + 1e-9 * (double)t.tv_nsec;
}

static int by_size(const void *a, const void *b) {
    double x = *(const double *)a, y = *(const double *)b;
    return (x > y) - (x < y);
}

static double median(double *times, int runs) {
    qsort(times, (size_t)runs, sizeof *times, by_size);
    return runs % 2 ? times[runs / 2] : (times[runs / 2 - 1] + times[runs / 2]) / 2;
}

enum { LEAST_RUNS = 7, MOST_RUNS = 41 };
static const double ENOUGH = 2.0;

// A job does its work once: ours is the library's, else the baseline's.
typedef void job(void *state, bool ours);

struct timed {
    double ours, base;
};

// The two in turn, each so often in a run that a run lasts about five milliseconds.
static struct timed time_both(job *work, void *state) {
    double begun = seconds();
    work(state, false);
    double once = seconds() - begun;
    int times = once > 0.005 ? 1 : (int)(0.005 / (once + 1e-7)) + 1;
    double ours[MOST_RUNS], base[MOST_RUNS], spent = 0;
    int runs = 0;
    while (runs < MOST_RUNS && (runs < LEAST_RUNS || spent < ENOUGH)) {
        for (int turn = 0; turn < 2; turn++) {
            bool mine = (turn + runs) % 2 == 0;
            begun = seconds();
            for (int i = 0; i < times; i++) work(state, mine);
            double took = seconds() - begun;
            spent += took;
            (mine ? ours : base)[runs] = took / times;
        }
        runs++;
    }
    return (struct timed){median(ours, runs), median(base, runs)};
}

static void row(const char *job_name, const char *size, struct timed t, double work, struct timed before,
                double work_before) {
    double ratio = t.ours / t.base;
    printf("| %s | %s | %.3f ms | %.3f ms | **%.2f** | ", job_name, size, 1e3 * t.ours, 1e3 * t.base, ratio);
    if (work_before > 0)
        printf("x%.2f for x%.2f work |\n", t.ours / before.ours, work / work_before);
    else
        printf("|\n");
    fflush(stdout);
}

static void heading(const char *title, const char *growth) {
    printf("\n### %s\n\n| job | size | library | baseline | ratio | %s |\n|---|---|---|---|---|---|\n", title, growth);
}

// --- jobs

struct rows_state {
    const struct scan *scan;
    const uint16_t *bounds, *greys;
    size_t bins, room;
    uint32_t *at[2];
    uint8_t *indices[2];
    uint16_t *shown[2];
    uint32_t total[2];
    size_t done[2];
};

static void do_count(void *state, bool ours) {
    struct rows_state *j = state;
    const struct scan *s = j->scan;
    j->total[ours] = (ours ? slip_count : base_count)(s->levels, s->rows, s->width, s->at, s->pixels, j->at[ours], MOST_LEVELS);
}

static void do_index(void *state, bool ours) {
    struct rows_state *j = state;
    const struct scan *s = j->scan;
    j->done[ours] = (ours ? slip_index : base_index)(s->levels, j->bounds, j->bins, j->greys, j->bins, s->rows, s->width,
                                                     s->at, s->pixels, j->indices[ours], j->room);
}

static void do_show(void *state, bool ours) {
    struct rows_state *j = state;
    const struct scan *s = j->scan;
    j->done[ours] = (ours ? slip_show : base_show)(s->levels, j->bounds, j->bins, j->greys, j->bins, s->rows, s->width,
                                                   j->indices[0], s->pixels, j->shown[ours], j->room);
}

struct draw_state {
    const struct scan *scan;
    uint16_t most;
    draws *by[2];
    size_t cells;
    uint64_t *tallies;
    uint16_t *links;
    uint16_t bounds[2][MOST_BINS], greys[2][MOST_BINS];
    struct drawn drawn[2];
};

static void do_draw(void *state, bool ours) {
    struct draw_state *j = state;
    const struct scan *s = j->scan;
    j->drawn[ours] = j->by[ours](s->levels, s->rows, s->width, s->at, s->pixels, j->most, j->tallies, j->cells, j->links,
                                 j->cells, j->bounds[ours], MOST_BINS, j->greys[ours], MOST_BINS);
}

static bool same_drawn(struct drawn a, struct drawn b) {
    return a.refusal == b.refusal && a.bins == b.bins && a.tally == b.tally && a.priced == b.priced &&
           a.compared == b.compared;
}

// Draws by both, and ends the program where they differ.
static struct draw_state compare_draws(const struct scan *s, uint16_t most, draws *base, draws *ours, size_t cells) {
    struct draw_state j = {.scan = s, .most = most, .by = {base, ours}, .cells = cells};
    j.tallies = list(cells, sizeof *j.tallies);
    j.links = list(cells, sizeof *j.links);
    do_draw(&j, false);
    memset(j.tallies, 0x5a, cells * sizeof *j.tallies);
    memset(j.links, 0x5a, cells * sizeof *j.links);
    do_draw(&j, true);
    if (!same_drawn(j.drawn[0], j.drawn[1])) fail("the drawings' receipts differ");
    if (memcmp(j.bounds[0], j.bounds[1], sizeof j.bounds[0]) || memcmp(j.greys[0], j.greys[1], sizeof j.greys[0]))
        fail("the drawn tables differ");
    return j;
}

static void compare_shown(struct rows_state *j) {
    do_show(j, false);
    do_show(j, true);
    if (j->done[0] != j->done[1] || memcmp(j->shown[0], j->shown[1], j->scan->pixels * sizeof *j->shown[0]))
        fail("the greys differ");
}

static void compare_rows(struct rows_state *j) {
    size_t pixels = j->scan->pixels;
    for (int ours = 0; ours < 2; ours++) {
        do_count(j, ours);
        do_index(j, ours);
    }
    if (j->total[0] != j->total[1] || memcmp(j->at[0], j->at[1], MOST_LEVELS * sizeof *j->at[0])) fail("the counts differ");
    if (j->done[0] != j->done[1] || memcmp(j->indices[0], j->indices[1], pixels)) fail("the indices differ");
    compare_shown(j);
}

// The same with an index that is no bin's, and with outputs too short.
static void compare_refused_rows(struct rows_state *j) {
    if (j->scan->pixels == 0) return;
    for (j->room = 0; j->room < j->scan->pixels; j->room++) compare_rows(j);
    uint8_t *last = &j->indices[0][j->scan->pixels - 1];
    *last = 255;
    compare_shown(j);
}

static struct rows_state rows_state(const struct scan *s, struct draw_state *table) {
    struct rows_state j = {.scan = s, .bounds = table->bounds[0], .greys = table->greys[0], .bins = table->drawn[0].bins, .room = s->pixels};
    for (int ours = 0; ours < 2; ours++) {
        j.at[ours] = list(MOST_LEVELS, sizeof *j.at[0]);
        j.indices[ours] = list(s->pixels, sizeof *j.indices[0]);
        j.shown[ours] = list(s->pixels, sizeof *j.shown[0]);
    }
    return j;
}

static void free_rows(struct rows_state *j) {
    for (int ours = 0; ours < 2; ours++) {
        free(j->at[ours]);
        free(j->indices[ours]);
        free(j->shown[ours]);
    }
}

enum { LONGEST_FILE = 7 + 6 * MOST_LEVELS + 4 * MOST_BINS };

// A table file, and what was written and read by each.
struct file_state {
    const uint32_t *at;
    size_t levels, bins;
    const uint16_t *bounds, *greys;
    uint8_t file[2][LONGEST_FILE];
    size_t length[2];
    uint32_t at_back[2][MOST_LEVELS];
    uint16_t bounds_back[2][MOST_BINS], greys_back[2][MOST_BINS], told[2];
};

static void do_write(void *state, bool ours) {
    struct file_state *j = state;
    j->length[ours] = (ours ? slip_write : base_write)(j->at, j->levels, j->bounds, j->bins, j->greys, j->bins, j->file[ours],
                                                       LONGEST_FILE);
}

static void do_read(void *state, bool ours) {
    struct file_state *j = state;
    j->told[ours] = (ours ? slip_read : base_read)(j->file[0], j->length[0], j->at_back[ours], MOST_LEVELS,
                                                   j->bounds_back[ours], MOST_BINS, j->greys_back[ours], MOST_BINS);
}

static void compare_reads(struct file_state *j) {
    do_read(j, false);
    do_read(j, true);
    if (j->told[0] != j->told[1] || memcmp(j->at_back[0], j->at_back[1], sizeof j->at_back[0]) ||
        memcmp(j->bounds_back[0], j->bounds_back[1], sizeof j->bounds_back[0]) ||
        memcmp(j->greys_back[0], j->greys_back[1], sizeof j->greys_back[0]))
        fail("what is read of a file differs");
}

static void compare_files(struct file_state *j) {
    do_write(j, false);
    do_write(j, true);
    if (j->length[0] != j->length[1] || memcmp(j->file[0], j->file[1], j->length[0])) fail("the files differ");
    compare_reads(j);
}

// A file cut at each byte, and with each byte changed in several ways: the two agree on what is wrong.
static void compare_damaged(struct file_state *j) {
    compare_files(j);
    size_t whole = j->length[0];
    for (j->length[0] = 0; j->length[0] <= whole + 1; j->length[0]++) compare_reads(j);
    j->length[0] = whole;
    for (size_t i = 0; i < whole; i++) {
        uint8_t byte = j->file[0][i];
        const uint8_t others[] = {0, 1, 4, 8, 255, (uint8_t)(byte + 1), (uint8_t)(byte - 1)};
        for (size_t k = 0; k < sizeof others; k++) {
            j->file[0][i] = others[k];
            compare_reads(j);
        }
        j->file[0][i] = byte;
    }
}

// --- the rivals of a drawn table: representatives by other ways, each level shown as the nearest

static uint64_t squared_tally(const uint32_t *at, size_t levels, const double *greys, size_t count) {
    uint64_t tally = 0;
    for (size_t k = 0; k < levels; k++) {
        uint64_t best = UINT64_MAX;
        for (size_t i = 0; i < count; i++) {
            int64_t apart = (int64_t)k - (int64_t)floor(greys[i] + 0.5);
            uint64_t error = (uint64_t)(apart * apart);
            if (error < best) best = error;
        }
        tally += at[k] * best;
    }
    return tally;
}

// The mean of the levels from a to b - 1; their middle where no pixel is.
static double mean(const uint32_t *at, size_t a, size_t b) {
    double pixels = 0, levels = 0;
    for (size_t k = a; k < b; k++) {
        pixels += at[k];
        levels += (double)at[k] * (double)k;
    }
    return pixels > 0 ? levels / pixels : (double)(a + b - 1) / 2;
}

static uint64_t equal_steps(const uint32_t *at, size_t levels, size_t bins) {
    double greys[MOST_BINS];
    for (size_t i = 0; i < bins; i++) greys[i] = ((double)i + 0.5) * (double)levels / (double)bins - 0.5;
    return squared_tally(at, levels, greys, bins);
}

// Lloyd's iteration from so many random starts, always the same ones; the best of them.
static uint64_t lloyd(const uint32_t *at, size_t levels, size_t bins, int starts) {
    uint64_t best = UINT64_MAX;
    seed = 1;
    for (int s = 0; s < starts; s++) {
        double greys[MOST_BINS];
        for (size_t i = 0; i < bins; i++) greys[i] = chance() % levels;
        qsort(greys, bins, sizeof *greys, by_size);
        for (int turn = 0; turn < 500; turn++) {
            double moved = 0;
            size_t a = 0;
            for (size_t i = 0; i < bins; i++) {
                size_t b = levels;
                if (i + 1 < bins) b = (size_t)floor((greys[i] + greys[i + 1]) / 2) + 1;
                if (b < a) b = a;
                double next = a < b ? mean(at, a, b) : greys[i];
                moved += fabs(next - greys[i]);
                greys[i] = next;
                a = b;
            }
            if (moved < 1e-9) break;
        }
        uint64_t tally = squared_tally(at, levels, greys, bins);
        if (tally < best) best = tally;
    }
    return best;
}

// Median cut: the box with the most pixels is cut where half of them are below, until there are enough.
static uint64_t median_cut(const uint32_t *at, size_t levels, size_t bins) {
    size_t from[MOST_BINS + 1] = {0, levels};
    size_t boxes = 1;
    while (boxes < bins) {
        size_t widest = boxes;
        uint64_t most = 0;
        for (size_t i = 0; i < boxes; i++) {
            uint64_t pixels = 0;
            size_t counted = 0;
            for (size_t k = from[i]; k < from[i + 1]; k++) {
                pixels += at[k];
                counted += at[k] > 0;
            }
            if (counted > 1 && pixels > most) most = pixels, widest = i;
        }
        if (widest == boxes) break;
        size_t a = from[widest], b = from[widest + 1], cut = a;
        for (uint64_t below = 0; 2 * below < most && cut < b; cut++) below += at[cut];
        bool any_above = false, any_below = false;
        for (size_t k = cut; k < b; k++) any_above |= at[k] > 0;
        if (!any_above)
            do cut--;
            while (at[cut] == 0);
        for (size_t k = a; k < cut; k++) any_below |= at[k] > 0;
        if (!any_below) cut++;
        memmove(from + widest + 2, from + widest + 1, (boxes - widest) * sizeof *from);
        from[widest + 1] = cut;
        boxes++;
    }
    double greys[MOST_BINS];
    for (size_t i = 0; i < boxes; i++) greys[i] = mean(at, from[i], from[i + 1]);
    return squared_tally(at, levels, greys, boxes);
}

// --- the tables

static const uint16_t MOSTS[] = {2, 16, 64, 256};

// The steps of a drawing: each candidate run priced, in as many steps as it has levels or, by trial, as many for each of them; and
// every path step compared.
static double draw_work(const struct scan *s, uint16_t most, bool by_trial) {
    uint32_t *at = pixels_of(s);
    double counted = 0;
    for (size_t k = 0; k < s->levels; k++) counted += at[k] > 0;
    free(at);
    double b = most < counted ? most : counted, slack = counted - b, adds = 0;
    for (double end = 0; end < counted; end++) {
        double runs = (end < slack ? end : slack) + 1;
        adds += runs * (runs + 1) / 2 * (by_trial ? (2 * runs + 1) / 3 : 1);
    }
    double h = slack + 1;
    double compared = b < 2 ? b : (b - 2) * h * (h + 1) / 2 + 2 * h;
    return adds + compared;
}

static void rows_table(const struct scan *big, const struct scan *half) {
    heading("Rows", "growth when the pixels double");
    struct draw_state big_table = compare_draws(big, 64, base_draw, slip_draw, 1024 * 64);
    struct rows_state state[2] = {rows_state(half, &big_table), rows_state(big, &big_table)};
    job *jobs[] = {do_count, do_index, do_show};
    const char *names[] = {"count", "index", "show"};
    for (int j = 0; j < 3; j++) {
        struct timed before = {0, 0};
        for (int i = 0; i < 2; i++) {
            compare_rows(&state[i]);
            struct timed t = time_both(jobs[j], &state[i]);
            char size[64];
            snprintf(size, sizeof size, "%zu rows of %zu", state[i].scan->rows, state[i].scan->width);
            row(names[j], size, t, (double)state[i].scan->pixels, before, i ? (double)half->pixels : 0);
            before = t;
        }
    }
    for (int i = 0; i < 2; i++) free_rows(&state[i]);
    free(big_table.tallies);
    free(big_table.links);
}

static void draw_table(const char *title, draws *base, draws *ours, struct scan *scans, int count, const uint16_t *mosts,
                       int most_count) {
    heading(title, "growth from the size above");
    for (int m = 0; m < most_count; m++) {
        struct timed before = {0, 0};
        double work_before = 0;
        for (int i = 0; i < count; i++) {
            const struct scan *s = &scans[i];
            if (mosts[m] > s->levels) continue;
            struct draw_state j = compare_draws(s, mosts[m], base, ours, (size_t)s->levels * mosts[m]);
            struct timed t = time_both(do_draw, &j);
            double work = draw_work(s, mosts[m], ours == slip_draw_by_trial);
            char size[64];
            snprintf(size, sizeof size, "%s, %u levels, M %u", s->name, s->levels, mosts[m]);
            bool is_flat = strcmp(s->name, "flat") == 0;
            row("draw", size, t, work, before, is_flat ? work_before : 0);
            before = t;
            work_before = work;
            free(j.tallies);
            free(j.links);
        }
    }
}

static void file_table(struct scan *scans, int count) {
    heading("Table files", "growth from the size above");
    job *jobs[] = {do_write, do_read};
    const char *names[] = {"write", "read"};
    static struct file_state j;
    for (int w = 0; w < 2; w++) {
        struct timed before = {0, 0};
        double bytes_before = 0;
        for (int i = 0; i < count; i++) {
            const struct scan *s = &scans[i];
            uint32_t *at = pixels_of(s);
            struct draw_state drawn = compare_draws(s, 64, base_draw, slip_draw, (size_t)s->levels * 64);
            j.at = at, j.levels = s->levels, j.bins = drawn.drawn[0].bins, j.bounds = drawn.bounds[0], j.greys = drawn.greys[0];
            compare_files(&j);
            struct timed t = time_both(jobs[w], &j);
            char size[64];
            snprintf(size, sizeof size, "%zu bytes, %u levels, %zu bins", j.length[0], s->levels, j.bins);
            row(names[w], size, t, (double)j.length[0], before, bytes_before);
            before = t, bytes_before = (double)j.length[0];
            free(at), free(drawn.tallies), free(drawn.links);
        }
    }
}

static void worth_table(struct scan *scans, int count) {
    printf("\n### Worth: sums of squared errors\n\n| scan | M | drawn | equal steps | Lloyd, best of 5 | Lloyd, best of 50 | median cut |\n|---|---|---|---|---|---|---|\n");
    for (int i = 0; i < count; i++) {
        const struct scan *s = &scans[i];
        uint32_t *at = pixels_of(s);
        for (size_t m = 0; m < sizeof MOSTS / sizeof *MOSTS; m++) {
            size_t bins = MOSTS[m];
            if (bins > s->levels) continue;
            struct draw_state j = compare_draws(s, MOSTS[m], base_draw, slip_draw, (size_t)s->levels * bins);
            uint64_t least = j.drawn[1].tally;
            uint64_t rivals[] = {equal_steps(at, s->levels, bins), lloyd(at, s->levels, bins, 5),
                                 lloyd(at, s->levels, bins, 50), median_cut(at, s->levels, bins)};
            printf("| %s, %u levels | %zu | %llu |", s->name, s->levels, bins, (unsigned long long)least);
            for (int r = 0; r < 4; r++) {
                if (rivals[r] < least) fail("a rival is below the least tally");
                if (least > 0)
                    printf(" x%.3f |", (double)rivals[r] / (double)least);
                else
                    printf(" %llu |", (unsigned long long)rivals[r]);
            }
            printf("\n");
            free(j.tallies);
            free(j.links);
        }
        free(at);
    }
}

// Refusals and odd shapes: the two agree on these as well.
static void compare_corners(void) {
    uint16_t bad[] = {0, 1, 2, 3, 4, 5, 6, 900};
    struct scan s = {"corner", 0, 0, 0, 0, bad};
    const uint16_t levels[] = {0, 1, 2, 6, 7, 1024, 1025}, mosts[] = {0, 1, 2, 256, 257};
    for (size_t l = 0; l < 7; l++)
        for (size_t width = 0; width < 10; width++)
            for (size_t rows = 0; rows < 10; rows++)
                for (size_t pixels = 0; pixels < 9; pixels++) {
                    s.levels = levels[l], s.width = width, s.rows = rows, s.pixels = pixels;
                    for (size_t m = 0; m < 5; m++)
                        for (size_t cells = 0; cells < 40; cells += 3) {
                            struct draw_state j = compare_draws(&s, mosts[m], base_draw, slip_draw, cells);
                            free(j.tallies), free(j.links);
                            j = compare_draws(&s, mosts[m], base_draw_by_trial, slip_draw_by_trial, cells);
                            if (j.drawn[0].bins > 0 && rows * width <= 8 && cells > 36) {
                                static struct file_state f;
                                uint32_t *at = pixels_of(&s);
                                f.at = at, f.levels = s.levels, f.bins = j.drawn[0].bins, f.bounds = j.bounds[0], f.greys = j.greys[0];
                                compare_damaged(&f);
                                free(at);
                            }
                            if (j.drawn[0].bins > 0) {
                                struct rows_state r = rows_state(&s, &j);
                                compare_rows(&r);
                                r.bins = j.drawn[0].bins - 1u;
                                compare_rows(&r);
                                r.bins = j.drawn[0].bins;
                                if (cells > 36) compare_refused_rows(&r);
                                free_rows(&r);
                            }
                            free(j.tallies), free(j.links);
                        }
                }
}

// Draws 1,024 levels at M 256 once and prints the peak memory of the process.
static void print_peak(bool ours) {
    struct scan s = flat(1024, 4, 1024);
    struct draw_state j = {.scan = &s, .most = 256, .by = {base_draw, slip_draw}, .cells = 1024 * 256};
    j.tallies = list(j.cells, sizeof *j.tallies);
    j.links = list(j.cells, sizeof *j.links);
    do_draw(&j, ours);
    struct rusage use;
    getrusage(RUSAGE_SELF, &use);
    printf("%ld\n", use.ru_maxrss);
}

// The same in a process of its own.
static long peak_of(const char *program, bool ours) {
    char command[4096];
    snprintf(command, sizeof command, "'%s' %s", program, ours ? "peak-library" : "peak-baseline");
    FILE *told = popen(command, "r");
    long peak = 0;
    if (!told || fscanf(told, "%ld", &peak) != 1 || pclose(told) != 0) fail("no peak");
    return peak;
}

int main(int argc, char **argv) {
    const char *word = argc > 1 ? argv[1] : "";
    if (strcmp(word, "peak-library") == 0 || strcmp(word, "peak-baseline") == 0) {
        print_peak(strcmp(word, "peak-library") == 0);
        return 0;
    }
    struct scan big = slip(1300, 1600), half = slip(650, 1600);
    struct scan flats[] = {flat(128, 4, 1024), flat(256, 4, 1024), flat(512, 4, 1024), flat(1024, 4, 1024)};
    struct scan draws_on[] = {flats[0], flats[1], flats[2], flats[3], big};
    struct scan small[] = {flat(32, 1, 1024), flat(64, 1, 1024), flat(128, 1, 1024)};
    const uint16_t trial_mosts[] = {2, 16};

    compare_corners();
    rows_table(&big, &half);
    file_table(flats, 4);
    if (strcmp(word, "rows") == 0) return 0;
    draw_table("Drawing, centroid pricer", base_draw, slip_draw, draws_on, 5, MOSTS, 4);
    draw_table("Drawing, trial pricer", base_draw_by_trial, slip_draw_by_trial, small, 3, trial_mosts, 2);
    worth_table(draws_on, 5);
    printf("\n### Peak memory of a process that draws 1,024 levels at M 256\n\n| library | baseline |\n|---|---|\n| %ld KB | %ld KB |\n",
           peak_of(argv[0], true), peak_of(argv[0], false));
    return 0;
}
