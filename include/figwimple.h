/* Figwimple, a freeway cell simulator: the proved library, for C and for any language that calls C.

   The archive is made by `bash tools/build figwimple`, for x86-64 Linux:

       cc examples/corridor.c -Iinclude target/staticlib/libfigwimple.a -o corridor

   and a shared library of it by

       cc -shared -o libfigwimple.so -Wl,--whole-archive target/staticlib/libfigwimple.a -Wl,--no-whole-archive

   WORDS. Each function answers one word: count * 2^40 + number * 2^32 + place. The number is 0 for accepted, else it says what is
   wrong, and the place where: a cell, a sample or a row value, counted from 1, or 0. The count is of the periods that a run
   completed, refused or not, and 0 for every other function. So an accepted run's word is not 0, unless it had no row: callers test
   the number.

       1  a list has the wrong length, the table is not 1 to 512 rows, a run is over 4,096 rows,
          or the free stretch ends past the samples or before it starts                          place 0
       2  a table number is outside its range                                                    cell
       3  w + x is over 65,536                                                                   cell
       4  a ramp number is used again                                                            later cell
       5  a state number is outside its range                                                    cell, 0 for the entry queue
       6  a demand is outside its range                                                          cell, 0 for the entry
       7  queue plus demand is over 1,000,000,000                                                cell, 0 for the entry
       8  piece counts don't sum to the new N (place 0), a count is 0, or a cell's pieces
          break the re-cut rules                                                                 old cell
       9  a setting (place 0) or a sample is unusable                                            sample
      10  the free stretch is empty, a sum of squares, speed or wave is computed as zero,
          or no sample is above critical                                                         place 0
      11  a row value is not at least 1 and at most its limit                                    1 to 4 for v, w, F, J
      14  group sizes don't sum to the old N (place 0), a size is 0, or a group's cells
          break the join rules                                                                   new cell

   The lowest number that applies is given, at its smallest place; in a re-cut and a join, of one number, the old table's come before
   the new one's. A refusal leaves every list as it came, but for a run refused at a later row.

   LISTS. A list is a pointer and its length in elements. With N cells:

       table    10N      v, w, F, J, on-ramp number, x, c, off-ramp number, b, dropped capacity of each cell
       state    3N + 1   entry queue, N counts, N on-ramp queues, N modes of the period before (0 free, 1 congested)
       demand   2N + 1   entry demand, N on-ramp demands, N off-ramp demands; a run takes K such rows end to end
       sheet    4N + 1   entry flow, N flows out, N off-ramp flows, N on-ramp flows, N modes (0 free, 1 congested)

   What the proofs do not say, the caller sees to: a pointer is not null and aligned, also where the length is 0; that many elements
   stand behind it; a list that a function writes overlaps no other list of the call, and no other thread uses it meanwhile. A
   function keeps no pointer, takes no memory, and uses little stack: some 8 KiB for the marks of the ramp numbers, one bit for each of
   65,536, and a run 4 KiB more, for the limits of a demand row. */

#ifndef FIGWIMPLE_H
#define FIGWIMPLE_H

#include <stddef.h>
#include <stdint.h>

#ifdef __cplusplus
extern "C" {
#endif

/* Whether a table is accepted: numbers 1 to 4. */
uint64_t figwimple_accept_table(const uint32_t *table, size_t table_length);

/* Whether a table and a state under it are accepted: numbers 1 to 5. */
uint64_t figwimple_accept_state(const uint32_t *table, size_t table_length, const uint32_t *state, size_t state_length);

/* Whether a table, a state and one demand row under them are accepted: numbers 1 to 7. */
uint64_t figwimple_accept_row(const uint32_t *table, size_t table_length, const uint32_t *state, size_t state_length,
                              const uint32_t *demand, size_t demand_length);

/* One period: numbers 1 to 7. Accepted, the state is the one after the period, with its modes, and the sheet has its flows and modes. */
uint64_t figwimple_period(const uint32_t *table, size_t table_length, uint32_t *state, size_t state_length,
                          const uint32_t *demand, size_t demand_length, uint32_t *sheet, size_t sheet_length);

/* A run of K demand rows, 0 to 4,096: numbers 1 to 5, then 6 and 7 at each row. The word's count is of the periods completed: K where
   the run is accepted, the number of rows before the refused one where 6 or 7 refuses it, and 0 where 1 to 5 do. The state is the one
   after the completed periods, the sheet the last completed period's; with none completed both stay as they came. */
uint64_t figwimple_run(const uint32_t *table, size_t table_length, uint32_t *state, size_t state_length,
                       const uint32_t *demand, size_t demand_length, uint32_t *sheet, size_t sheet_length);

/* Cuts the cells of a table into pieces: numbers 1 to 5 and 8. `pieces` has one count for each old cell, and the new table the
   pieces' rows in their order. Accepted, `new_state` has the vehicles, queues and modes under the new table. */
uint64_t figwimple_recut(const uint32_t *old_table, size_t old_table_length, const uint32_t *old_state, size_t old_state_length,
                         const uint32_t *pieces, size_t pieces_length, const uint32_t *new_table, size_t new_table_length,
                         uint32_t *new_state, size_t new_state_length);

/* Joins the cells of a table, group by group: numbers 1 to 5 and 14. `groups` has one size for each new cell, and the new table a row
   for each group. Accepted, `new_state` has the vehicles, queues and modes under the new table. */
uint64_t figwimple_join(const uint32_t *old_table, size_t old_table_length, const uint32_t *old_state, size_t old_state_length,
                        const uint32_t *groups, size_t groups_length, const uint32_t *new_table, size_t new_table_length,
                        uint32_t *new_state, size_t new_state_length);

/* Fits a triangular diagram to detector samples and makes a cell row of it: numbers 1, 9, 10 and 11. `flow` (veh/h) and `occupancy`
   (0 to 1) are equally long, at most 65,536 samples. The settings: g, the effective vehicle length in miles; the lanes; the period t
   in whole seconds; the cell length l in miles; the samples from `start` up to but without `end`, counted from 0, are in free flow.
   Accepted, `diagram`, of length 5, has speed, capacity, critical density, wave speed and jam density, and `row`, of length 4, has
   v, w, F and J. */
uint64_t figwimple_calibrate(const double *flow, size_t flow_length, const double *occupancy, size_t occupancy_length,
                             double g, uint32_t lanes, uint32_t t, double l, size_t start, size_t end,
                             double *diagram, size_t diagram_length, uint32_t *row, size_t row_length);

/* The count, the number and the place of a word. */
static inline uint32_t figwimple_count(uint64_t word) { return (uint32_t)(word >> 40); }
static inline uint32_t figwimple_number(uint64_t word) { return (uint32_t)(word >> 32) & 255; }
static inline uint32_t figwimple_place(uint64_t word) { return (uint32_t)word; }

#ifdef __cplusplus
}
#endif

#endif
