// What both plain programs share: document 01's state as C has it, the order file, and the printed run. The file that includes this one defines the
// three orders on `machine`. No header of the C library is needed: the kit has none.
typedef unsigned char u8;
typedef unsigned int u32;
typedef unsigned long word;

long read(int, void *, word);
long write(int, const void *, word);

enum stage { ABSENT, RUNNING, FINISHED, CRASHED };

struct process {
    u32 stage, level, made, set, value; // set: what it has found, or its view
};

struct machine {
    u32 n;
    u32 filled[32];      // row x at x - 1
    u32 values[32 * 32]; // row x, register i at 32(x - 1) + (i - 1)
    struct process processes[32];
};

static struct machine machine;

// Each answers document 01's number.
static u32 enter_order(u32 p, u32 v);
static u32 step_order(u32 p);
static u32 crash_order(u32 p);

// One read of register `made` (rules 4 and 5); 7 where there is no level below.
static u32 read_register(u32 n, u32 row, struct process *q) {
    q->set |= row & (1u << (q->made - 1));
    if (q->made < n) {
        q->made++;
    } else if ((u32)__builtin_popcount(q->set) == q->level) {
        q->stage = FINISHED;
        q->made = n + 1;
    } else if (q->level == 1) {
        return 7;
    } else {
        q->level--;
        q->made = q->set = 0;
    }
    return 0;
}

static u8 input[65536], text[16384];
static word length;

static void put(const char *s) {
    while (*s) text[length++] = *s++;
}

static void put_number(u32 x) {
    if (x >= 10) put_number(x / 10);
    text[length++] = '0' + x % 10;
}

static void put_field(u32 x) {
    put(" ");
    put_number(x);
}

static void put_process(u32 p) {
    static const char *names[] = {" absent", " running", " finished", " crashed"};
    const struct process *q = &machine.processes[p - 1];
    put("p");
    put_field(p);
    put(names[q->stage]);
    put_field(q->level);
    put_field(q->stage == ABSENT ? 0 : (machine.n + 1) * (machine.n - q->level) + q->made);
    put(" ");
    if (q->stage != FINISHED) put("-");
    for (u32 i = 0, k = 0; q->stage == FINISHED && i < 32; i++) {
        if (!(q->set >> i & 1)) continue;
        if (k++) put(",");
        put_number(i + 1);
        put(":");
        put_number(machine.values[32 * (q->level - 1) + i]);
    }
    put("\n");
}

int main(void) {
    word got = 0;
    for (long k; got < sizeof input && (k = read(0, input + got, sizeof input - got)) > 0;) got += k;
    if (got == sizeof input) {
        put("too long\n");
        return write(1, text, length) < 0;
    }
    u32 number = 0, taken = 0, accesses = 0, refused = 0, entered = 0;
    word at = 0;
    machine.n = 1;
    if (got == 0 || (got >= 2 && (input[0] != 'M' || input[1] != 'N'))) number = 9;
    else if (got < 3) number = 11;
    else if (input[2] < 1 || 32 < input[2]) number = 8;
    else machine.n = input[2], at = 3;
    while (number == 0 && at < got) {
        u32 left = got - at, mark = input[at] << 8 | (left > 1 ? input[at + 1] : 0), size = mark == ('E' << 8 | 'N') ? 7 : 3, answer;
        if (taken == 65535) number = 13;
        else if (left < 2) number = 11;
        else if (mark == ('M' << 8 | 'N')) number = 12;
        else if (mark != ('E' << 8 | 'N') && mark != ('S' << 8 | 'T') && mark != ('C' << 8 | 'R')) number = 10;
        else if (left < size) number = 11;
        if (number) break;
        u32 p = input[at + 2];
        if (size == 7) {
            const u8 *v = input + at + 3;
            answer = enter_order(p, v[0] | v[1] << 8 | v[2] << 16 | (u32)v[3] << 24);
        } else if (mark == ('S' << 8 | 'T')) {
            answer = step_order(p);
            accesses += answer == 0;
        } else {
            answer = crash_order(p);
        }
        taken++;
        refused += answer != 0;
        at += size;
    }
    put("run");
    put_field(number), put_field(at), put_field(taken), put_field(accesses), put_field(refused);
    put("\n");
    for (u32 p = 1; p <= machine.n; p++) {
        put_process(p);
        entered += machine.processes[p - 1].stage != ABSENT;
    }
    put("participants");
    put_field(entered);
    put("\n");
    return write(1, text, length) < 0;
}
