// Plain program (b): one machine, changed where it stands; its shape is never tested.
#include "job.h"

static u32 refusal(u32 p) {
    static const u32 numbers[] = {4, 0, 6, 5};
    return p < 1 || machine.n < p ? 2 : numbers[machine.processes[p - 1].stage];
}

static u32 enter_order(u32 p, u32 v) {
    if (p < 1 || machine.n < p) return 2;
    if (machine.processes[p - 1].stage != ABSENT) return 3;
    machine.processes[p - 1] = (struct process){RUNNING, machine.n, 0, 0, v};
    return 0;
}

static u32 step_order(u32 p) {
    u32 answer = refusal(p);
    if (answer) return answer;
    struct process *q = &machine.processes[p - 1];
    u32 *row = &machine.filled[q->level - 1];
    if (q->made) return read_register(machine.n, *row, q);
    *row |= 1u << (p - 1);
    machine.values[32 * (q->level - 1) + (p - 1)] = q->value;
    q->made = 1;
    return 0;
}

static u32 crash_order(u32 p) {
    u32 answer = refusal(p);
    if (answer) return answer;
    machine.processes[p - 1].stage = CRASHED;
    return 0;
}
