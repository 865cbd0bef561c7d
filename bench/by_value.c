// Plain program (a): our contract. Every call takes the state by value, tests its shape, and hands the next state back.
#include "job.h"

struct called {
    u32 answer;
    struct machine machine;
};

static int within(u32 s, u32 t) { return (s & t) == s; }

static int process_shaped(const struct machine *m, u32 i, const struct process *q) {
    if (q->stage == ABSENT) return !(q->level | q->made | q->set | q->value);
    if (m->n < i || q->level < 1 || m->n < q->level) return 0;
    u32 row = m->filled[q->level - 1];
    if (q->stage == FINISHED) return q->made == m->n + 1 && (u32)__builtin_popcount(q->set) == q->level && within(q->set, row);
    return q->made <= m->n && within(q->set, q->made ? (u32)((1ul << (q->made - 1)) - 1) : 0) && within(q->set, row);
}

// Document 01, "A state is well shaped if ..": each process's lowest written row (33 if none) tells which registers must be filled.
static int shaped(const struct machine *m) {
    u32 low[32], own[32], by_row[34] = {0}, written = 0;
    int ok = 1;
    if (m->n < 1 || 32 < m->n) return 0;
    for (u32 i = 0; i < 32; i++) {
        const struct process *q = &m->processes[i];
        if (!process_shaped(m, i + 1, q)) return 0;
        low[i] = q->stage == ABSENT ? 33 : q->level + (q->made == 0);
        own[i] = q->value;
        by_row[low[i]] |= 1u << i;
    }
    for (u32 x = 1; x <= 32; x++) {
        const u32 *row = &m->values[32 * (x - 1)];
        u32 reach = x <= m->n ? x : 0;
        written |= by_row[x];
        ok &= m->filled[x - 1] == (x <= m->n ? written : 0);
        for (u32 i = 0; i < 32; i++) ok &= row[i] == (low[i] <= reach ? own[i] : 0);
    }
    return ok;
}

// Numbers 1, 2, and for a step and a crash 4, 5, 6.
static u32 refusal(const struct machine *m, u32 p, int moves) {
    static const u32 numbers[] = {4, 0, 6, 5};
    if (!shaped(m)) return 1;
    if (p < 1 || m->n < p) return 2;
    return moves ? numbers[m->processes[p - 1].stage] : 0;
}

static struct called enter(struct machine m, u32 p, u32 v) {
    u32 answer = refusal(&m, p, 0);
    if (answer) return (struct called){answer, m};
    if (m.processes[p - 1].stage != ABSENT) return (struct called){3, m};
    m.processes[p - 1] = (struct process){RUNNING, m.n, 0, 0, v};
    return (struct called){0, m};
}

static struct called step(struct machine m, u32 p) {
    u32 answer = refusal(&m, p, 1);
    if (answer) return (struct called){answer, m};
    struct process q = m.processes[p - 1];
    u32 *row = &m.filled[q.level - 1];
    if (q.made == 0) {
        *row |= 1u << (p - 1);
        m.values[32 * (q.level - 1) + (p - 1)] = q.value;
        q.made = 1;
    } else if (read_register(m.n, *row, &q)) {
        return (struct called){7, m};
    }
    m.processes[p - 1] = q;
    return (struct called){0, m};
}

static struct called crash(struct machine m, u32 p) {
    u32 answer = refusal(&m, p, 1);
    if (answer) return (struct called){answer, m};
    m.processes[p - 1].stage = CRASHED;
    return (struct called){0, m};
}

static u32 keep(struct called c) {
    machine = c.machine;
    return c.answer;
}

static u32 enter_order(u32 p, u32 v) { return keep(enter(machine, p, v)); }
static u32 step_order(u32 p) { return keep(step(machine, p)); }
static u32 crash_order(u32 p) { return keep(crash(machine, p)); }
