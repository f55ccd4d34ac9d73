// The same work as the library, in plain C.
#ifndef BASELINE_H
#define BASELINE_H
#include <stddef.h>
#include <stdint.h>

enum { MOST_LEVELS = 1024, MOST_BINS = 256 };

struct histogram {
    uint16_t levels;
    uint32_t pixels[MOST_LEVELS];
    uint32_t total;
};

struct drawn {
    uint16_t refusal;
    uint16_t bins;
    uint64_t tally;
    uint64_t priced;
    uint64_t compared;
};

uint32_t base_count(uint16_t levels, size_t rows, size_t width, const uint16_t *scan, size_t pixels,
                    uint32_t *at, size_t places);

struct drawn base_draw(uint16_t levels, size_t rows, size_t width, const uint16_t *scan, size_t pixels,
                       uint16_t most, uint64_t *tallies, size_t tally_cells, uint16_t *links,
                       size_t link_cells, uint16_t *bounds, size_t bound_cells,
                       uint16_t *representatives, size_t representative_cells);

struct drawn base_draw_by_trial(uint16_t levels, size_t rows, size_t width, const uint16_t *scan,
                                size_t pixels, uint16_t most, uint64_t *tallies, size_t tally_cells,
                                uint16_t *links, size_t link_cells, uint16_t *bounds,
                                size_t bound_cells, uint16_t *representatives,
                                size_t representative_cells);

size_t base_index(uint16_t levels, const uint16_t *bounds, size_t bound_cells,
                  const uint16_t *representatives, size_t representative_cells, size_t rows,
                  size_t width, const uint16_t *scan, size_t pixels, uint8_t *out, size_t room);

size_t base_show(uint16_t levels, const uint16_t *bounds, size_t bound_cells,
                 const uint16_t *representatives, size_t representative_cells, size_t rows,
                 size_t width, const uint8_t *indices, size_t pixels, uint16_t *out, size_t room);

size_t base_write(const uint32_t *at, size_t levels, const uint16_t *bounds, size_t bound_cells,
                  const uint16_t *representatives, size_t representative_cells, uint8_t *out, size_t room);

uint16_t base_read(const uint8_t *file, size_t length, uint32_t *at, size_t places, uint16_t *bounds,
                   size_t bound_cells, uint16_t *representatives, size_t representative_cells);

#endif
