/*
 * Document 01, with K14, K6, K3 and K5 of document 02, as plain C, to measure the
 * library against: the fastest that we know how to write without a heap. The
 * calls have the signatures of include/lilota.h.
 */
#ifndef BASELINE_H
#define BASELINE_H

#include <stdbool.h>
#include <stddef.h>
#include <stdint.h>

uint32_t baseline_format(uint8_t *m, size_t n, size_t allowance, size_t *steps);
uint32_t baseline_mount(uint8_t *m, size_t n, size_t allowance, size_t *head, size_t *tail, size_t *files,
                        size_t *live, size_t *dead, size_t *blank, size_t *lost, size_t *steps);
uint32_t baseline_put(uint8_t *m, size_t n, const uint8_t *name, size_t name_length, const uint8_t *data,
                      size_t data_length, size_t allowance, uint32_t *reason, size_t *place, size_t *live, size_t *dead,
                      size_t *blank, size_t *lost, size_t *steps);
uint32_t baseline_get(const uint8_t *m, size_t n, const uint8_t *name, size_t name_length, uint32_t *reason,
                      size_t *place, size_t *offset, size_t *size);
uint32_t baseline_list(const uint8_t *m, size_t n, size_t index, size_t *name_offset, size_t *name_length,
                       size_t *size);
uint32_t baseline_remove(uint8_t *m, size_t n, const uint8_t *name, size_t name_length, size_t allowance,
                         uint32_t *reason, size_t *place, size_t *steps);
uint32_t baseline_sweep(uint8_t *m, size_t n, size_t allowance, size_t *moves, size_t *live, size_t *dead, size_t *blank, size_t *lost,
                        size_t *steps);

/* Whether all is FF, told at the end alone. */
bool baseline_scan(const uint8_t *m, size_t n);

#endif
