/* Bilvakront: a verified I2C bus stack with an EEPROM model.
 *
 * Every function answers and ends, for any bytes in any of the areas that it
 * is lent. It returns 0 and has run, or it returns the number of a refusal,
 * reports 0 ticks, and has changed no lent byte:
 *
 *    1  list over 4,096 bytes
 *    2  list not of the form, cut short included
 *    3  memory or state length not 4,096 or 4 per chip
 *    4  a pointer over 4,095 or busy over 20,000 in a state
 *    5  a hold byte over 16, used or not
 *    6  asked busy time over 20,000
 *    7  result area under the size that the list asks for
 *    8  a sample byte over 3
 *    9  drive buffer shorter than the samples
 *   10  a strap over 7
 *
 * Every area comes as a pointer and its length; a length of 0 may come with
 * any pointer that is not null. `ticks` and `end` point to one number each, and
 * are not null. Areas that are written must not overlap any other.
 * What each function writes is proved to be what the definitions under
 * crates/.../specs say, for every input.
 */
#ifndef BILVAKRONT_H
#define BILVAKRONT_H

#include <stddef.h>
#include <stdint.h>

#ifdef __cplusplus
extern "C" {
#endif

/* The whole-bus run: an order list over two wires, with the EEPROMs that
 * `marks` names (bit s: a chip at address 80 + s) and a clock holder. Numbers
 * 1 to 7, in that order. The memories (4,096 bytes a chip, in place order) and
 * the states (4 bytes a chip: pointer, busy ticks left, each low byte first)
 * are as the chips leave them; `results` holds an outcome byte a transaction
 * and flag, count and bytes read a message; `trace` the lines of its first
 * ticks, a byte a tick, SCL in bit 0 and SDA in bit 1. Bytes of `results` past
 * its size, and of `trace` past the last tick, stay. */
uint8_t bilvakront_bus_run(
    const uint8_t *list, size_t list_len, uint8_t marks,
    uint8_t *memory, size_t memory_len, uint8_t *states, size_t states_len,
    const uint8_t *holds, size_t holds_len, uint16_t asked,
    uint8_t *results, size_t results_len, uint8_t *trace, size_t trace_len,
    uint64_t *ticks);

/* The plain reading of the same list: the same answers without wires. */
uint8_t bilvakront_plain_reading(
    const uint8_t *list, size_t list_len, uint8_t marks,
    uint8_t *memory, size_t memory_len, uint8_t *states, size_t states_len,
    const uint8_t *holds, size_t holds_len, uint16_t asked,
    uint8_t *results, size_t results_len, uint64_t *ticks);

/* The controller alone on a record of samples (a byte a tick, of the trace's
 * form): it writes one drive byte a tick and the results, and stops at the
 * list's end, a fault or the record's end. Numbers 1, 2, 8, 9, 7, in that
 * order. `end`: 0 the list's end, 1 to 5 the fault (1 data lost, 2 clock
 * stuck, 3 undefined, 4 bus not free, 5 line broken), 6 the record's end,
 * 7 refused. */
uint8_t bilvakront_controller_alone(
    const uint8_t *list, size_t list_len,
    const uint8_t *samples, size_t samples_len,
    uint8_t *drives, size_t drives_len, uint8_t *results, size_t results_len,
    uint8_t *end, uint64_t *ticks);

/* One chip alone, at address 80 + strap, on a record of samples: it writes one
 * drive byte a tick (its SCL bit is always 1), its memory and its state.
 * Numbers 10, 3, 4, 6, 8, 9, in that order. */
uint8_t bilvakront_chip_alone(
    uint8_t strap, uint8_t *memory, size_t memory_len,
    uint8_t *state, size_t state_len, uint16_t asked,
    const uint8_t *samples, size_t samples_len,
    uint8_t *drives, size_t drives_len, uint64_t *ticks);

#ifdef __cplusplus
}
#endif

#endif
