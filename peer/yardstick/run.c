/* A run of the cell model with every column in an array of its own, as a yardstick of what the machine can do.
 *
 * The table and the state are accepted before this is called. A cell without a ramp holds zeros in the ramp's columns and
 * lists, so one formula without a branch serves every cell: see 'step'. Build with: cc -O3 -march=native */

#include <stddef.h>
#include <stdint.h>

enum { MOST_CELLS = 512, COLUMNS = 10, ONE = 65536, MOST_FLOW = 1000000, MOST_QUEUE = 1000000000 };

typedef struct {
    uint32_t v[MOST_CELLS], w[MOST_CELLS], capacity[MOST_CELLS], dropped[MOST_CELLS], jam[MOST_CELLS];
    uint32_t x[MOST_CELLS], c[MOST_CELLS], stay[MOST_CELLS];
    uint32_t most_on[MOST_CELLS], most_off[MOST_CELLS];
    double split[MOST_CELLS], rest[MOST_CELLS];
    uint32_t room[MOST_CELLS + 1], ready[MOST_CELLS];
} columns;

static inline uint32_t least(uint32_t a, uint32_t b) { return a < b ? a : b; }

static inline uint32_t part(uint32_t share, uint32_t vehicles) {
    return (uint32_t)((uint64_t)share * vehicles >> 16);
}

static void prepare(columns *t, const uint32_t *table, size_t cells) {
    for (size_t i = 0; i < cells; i++) {
        const uint32_t *row = table + COLUMNS * i;
        t->v[i] = row[0];
        t->w[i] = row[1];
        t->capacity[i] = row[2];
        t->dropped[i] = row[9];
        t->jam[i] = row[3];
        t->x[i] = row[5];
        t->c[i] = row[6];
        t->stay[i] = ONE - row[8];
        t->most_on[i] = row[4] ? MOST_FLOW : 0;
        t->most_off[i] = row[7] && !row[8] ? MOST_FLOW : 0;
        t->split[i] = row[8];
        t->rest[i] = ONE - row[8];
    }
}

/* Whether the row breaks rule 6 or 7 anywhere. */
static int breaks(const columns *restrict t, const uint32_t *restrict state, const uint32_t *restrict demand,
                  size_t cells) {
    const uint32_t *restrict queue = state + 1 + cells, *restrict on = demand + 1, *restrict off = demand + 1 + cells;
    uint32_t any = demand[0] > MOST_FLOW || state[0] + demand[0] > MOST_QUEUE;
    for (size_t i = 0; i < cells; i++)
        any |= (on[i] > t->most_on[i]) | (off[i] > t->most_off[i]) | (queue[i] + on[i] > MOST_QUEUE);
    return any != 0;
}

/* The number and place of a row that breaks rule 6 or 7. */
static uint64_t refusal(const columns *t, const uint32_t *state, const uint32_t *demand, size_t cells) {
    const uint32_t *queue = state + 1 + cells, *on = demand + 1, *off = demand + 1 + cells;
    if (demand[0] > MOST_FLOW) return (uint64_t)6 << 32;
    for (size_t i = 0; i < cells; i++)
        if (on[i] > t->most_on[i] || off[i] > t->most_off[i]) return (uint64_t)6 << 32 | (i + 1);
    if (state[0] + demand[0] > MOST_QUEUE) return (uint64_t)7 << 32;
    for (size_t i = 0; i < cells; i++)
        if (queue[i] + on[i] > MOST_QUEUE) return (uint64_t)7 << 32 | (i + 1);
    return 0;
}

/* One period. Which capacity holds goes by the modes that the state has from the period before, until this one's take their
 * place. f·b is under 2^36 and ONE − b at most 2^16, so the quotient of doubles, cut to a whole number, is the quotient
 * rounded down: where it is not whole it is at least 2^-16 under the next whole number, and is off by at most 2^-17. */
static void step(columns *restrict t, uint32_t *restrict state, const uint32_t *restrict demand,
                 uint32_t *restrict sheet, size_t cells) {
    uint32_t *restrict count = state + 1, *restrict queue = count + cells, *restrict before = queue + cells;
    const uint32_t *restrict on = demand + 1, *restrict off = demand + 1 + cells;
    uint32_t *restrict f = sheet + 1, *restrict s = f + cells, *restrict r = s + cells, *restrict mode = r + cells;
    uint32_t *restrict room = t->room, *restrict ready = t->ready;

    /* Several short loops, since the compiler turns each of them into vector code and one long loop into none. */
    for (size_t i = 0; i < cells; i++) room[i] = part(t->w[i], t->jam[i] - count[i]);
    for (size_t i = 0; i < cells; i++) ready[i] = part(t->v[i], count[i]);
    room[cells] = UINT32_MAX;

    uint32_t waiting = state[0] + demand[0], entry = least(waiting, room[0]);
    state[0] = waiting - entry;
    sheet[0] = entry;

#pragma GCC ivdep
    for (size_t i = 0; i < cells; i++) {
        uint32_t holds = before[i] ? t->dropped[i] : t->capacity[i];
        uint32_t given = least(off[i], ready[i]), most = least(holds, room[i + 1]);
        uint32_t wanted = part(t->stay[i], ready[i]) - given;
        f[i] = least(wanted, most);
        s[i] = given;
        mode[i] = before[i] = wanted >= most;
    }
#pragma GCC ivdep
    for (size_t i = 0; i < cells; i++) {
        uint32_t in = queue[i] + on[i];
        uint32_t ramp = least(least(in, part(t->x[i], t->jam[i] - count[i])), t->c[i]);
        queue[i] = in - ramp;
        r[i] = ramp;
    }
#pragma GCC ivdep
    for (size_t i = 0; i < cells; i++)
        s[i] += (uint32_t)(int32_t)((double)(int32_t)f[i] * t->split[i] / t->rest[i]);
#pragma GCC ivdep
    for (size_t i = 0; i < cells; i++) count[i] += r[i] - f[i] - s[i];
    count[0] += entry;
    for (size_t i = 1; i < cells; i++) count[i] += f[i - 1];
}

/* The periods completed times 2^40, plus number times 2^32 plus place of the refusal that ended them. */
uint64_t yardstick_run(const uint32_t *table, size_t cells, uint32_t *state, const uint32_t *demand, size_t rows,
                       uint32_t *sheet) {
    columns t;
    prepare(&t, table, cells);
    for (size_t k = 0; k < rows; k++, demand += 2 * cells + 1) {
        if (breaks(&t, state, demand, cells)) return (uint64_t)k << 40 | refusal(&t, state, demand, cells);
        step(&t, state, demand, sheet, cells);
    }
    return (uint64_t)rows << 40;
}
