/* Turns of a running attempt, outside reads and verdicts over a table of versions in plain C, for bench/tables.py: the
   same tables, the same order of looks and the same answers as the crates rv_core, vol_copy, ver_table and validate have.
   Called as ACT OBJECTS BATCHES ROUNDS, it prints how many turns or rounds there were and a sum of their answers. */
#include <stdbool.h>
#include <stdint.h>
#include <stdio.h>
#include <stdlib.h>
#include <string.h>

typedef uint32_t u32;
typedef uint8_t u8;

enum { MAX_OBJECTS = 128, MAX_SLOTS = 8, MAX_OTHERS = 7, MEMORY = 1024, FUEL = 1000000, SIZE = 16, MAX_RECORDS = 16 };

/* The machine of one task. */

struct machine { u32 registers[32], pc, used, count, fuel, bytes; u8 *memory; };

enum step { WENT, CALL, TRAP };

static u32 word_in(const u8 *m, u32 at) {
    u32 word;
    memcpy(&word, m + at, 4);
    return word;
}

static void load(struct machine *m, const u32 *code, u32 words, u32 arg) {
    memset(m->memory, 0, m->used);
    memcpy(m->memory, code, 4 * words);
    m->used = 4 * words;
    memset(m->registers, 0, sizeof m->registers);
    m->registers[2] = m->bytes, m->registers[10] = arg;
    m->pc = m->count = 0, m->fuel = FUEL;
}

static bool load_value(struct machine *m, u32 kind, u32 rd, u32 at) {
    static const u8 sizes[8] = {1, 2, 4, 0, 1, 2, 0, 0};
    u32 size = sizes[kind], value = 0;
    if (size == 0 || at % size != 0 || (uint64_t)at + size > m->bytes) return false;
    memcpy(&value, m->memory + at, size);
    if (kind == 0) value = (u32)(int8_t)value;
    if (kind == 1) value = (u32)(int16_t)value;
    if (rd != 0) m->registers[rd] = value;
    m->pc += 4;
    return true;
}

static bool store_value(struct machine *m, u32 kind, u32 at, u32 value) {
    u32 size = 1u << kind;
    if (kind > 2 || at % size != 0 || (uint64_t)at + size > m->bytes) return false;
    memcpy(m->memory + at, &value, size);
    if (at + size > m->used) m->used = at + size;
    m->pc += 4;
    return true;
}

static bool branch(struct machine *m, u32 kind, u32 a, u32 b, u32 offset) {
    bool taken;
    switch (kind) {
    case 0: taken = a == b; break;
    case 1: taken = a != b; break;
    case 4: taken = (int32_t)a < (int32_t)b; break;
    case 5: taken = (int32_t)a >= (int32_t)b; break;
    case 6: taken = a < b; break;
    case 7: taken = a >= b; break;
    default: return false;
    }
    if (!taken) { m->pc += 4; return true; }
    if ((m->pc + offset) % 4 != 0) return false;
    m->pc += offset;
    return true;
}

static bool jump(struct machine *m, u32 rd, u32 target) {
    if (target % 4 != 0) return false;
    if (rd != 0) m->registers[rd] = m->pc + 4;
    m->pc = target;
    return true;
}

static u32 divided(u32 kind, u32 a, u32 b) {
    switch (kind) {
    case 0: return a * b;
    case 1: return (u32)((int64_t)(int32_t)a * (int32_t)b >> 32);
    case 2: return (u32)((int64_t)(int32_t)a * (int64_t)b >> 32);
    case 3: return (u32)((uint64_t)a * b >> 32);
    case 4: return b == 0 ? UINT32_MAX : a == 0x80000000 && b == UINT32_MAX ? a : (u32)((int32_t)a / (int32_t)b);
    case 5: return b == 0 ? UINT32_MAX : a / b;
    case 6: return b == 0 ? a : a == 0x80000000 && b == UINT32_MAX ? 0 : (u32)((int32_t)a % (int32_t)b);
    default: return b == 0 ? a : a % b;
    }
}

static u32 computed(u32 kind, bool other, u32 a, u32 b) {
    switch (kind) {
    case 0: return other ? a - b : a + b;
    case 1: return a << (b & 31);
    case 2: return (int32_t)a < (int32_t)b;
    case 3: return a < b;
    case 4: return a ^ b;
    case 5: return other ? (u32)((int32_t)a >> (b & 31)) : a >> (b & 31);
    case 6: return a | b;
    default: return a & b;
    }
}

static bool set_and_go(struct machine *m, u32 rd, u32 value) {
    if (rd != 0) m->registers[rd] = value;
    m->pc += 4;
    return true;
}

/* Operations on registers, with all bits above looked at. */
static bool operate(struct machine *m, u32 word, u32 rd, u32 kind, u32 a, u32 b) {
    u32 above = word >> 25;
    if (above == 1) return set_and_go(m, rd, divided(kind, a, b));
    if (above != 0 && !(above == 32 && (kind == 0 || kind == 5))) return false;
    return set_and_go(m, rd, computed(kind, above == 32, a, b));
}

static bool operate_immediate(struct machine *m, u32 word, u32 rd, u32 kind, u32 a) {
    u32 above = word >> 25;
    if (kind == 1 && above != 0) return false;
    if (kind == 5 && above != 0 && above != 32) return false;
    return set_and_go(m, rd, computed(kind, kind == 5 && above == 32, a, (u32)((int32_t)word >> 20)));
}

static enum step step(struct machine *m) {
    if (m->count >= m->fuel) return TRAP;
    m->count++;
    if ((uint64_t)m->pc + 4 > m->bytes) return TRAP;
    u32 word = word_in(m->memory, m->pc), rd = word >> 7 & 31, kind = word >> 12 & 7;
    u32 a = m->registers[word >> 15 & 31], b = m->registers[word >> 20 & 31], high = (u32)((int32_t)word >> 20);
    bool went = false;
    switch (word & 127) {
    case 0x37: went = set_and_go(m, rd, word & 0xFFFFF000); break;
    case 0x17: went = set_and_go(m, rd, m->pc + (word & 0xFFFFF000)); break;
    case 0x6F:
        went = jump(m, rd, m->pc + ((u32)((int32_t)word >> 31) << 20 | (word & 0xFF000) | (word >> 9 & 0x800) | (word >> 20 & 0x7FE)));
        break;
    case 0x67: went = kind == 0 && jump(m, rd, (a + high) & ~1u); break;
    case 0x63:
        went = branch(m, kind, a, b, (u32)((int32_t)word >> 31) << 12 | (word << 4 & 0x800) | (word >> 20 & 0x7E0) | (word >> 7 & 0x1E));
        break;
    case 0x03: went = load_value(m, kind, rd, a + high); break;
    case 0x23: went = store_value(m, kind, a + ((high & ~31u) | rd), b); break;
    case 0x13: went = operate_immediate(m, word, rd, kind, a); break;
    case 0x33: went = operate(m, word, rd, kind, a, b); break;
    case 0x0F: went = kind == 0; m->pc += 4; break;
    case 0x73: return word == 0x73 ? CALL : TRAP;
    }
    return went ? WENT : TRAP;
}

/* A set of objects, one try of a task, and one turn of it. */

typedef unsigned __int128 objects;

enum stage { RUNNING, FETCHING, COPYING, READY, TRAPPED };

struct attempt {
    struct machine machine;
    u32 task, count, wanted, at, copied, code;
    objects reads, written;
    u32 copies[MAX_OBJECTS][SIZE], words[MAX_OBJECTS][SIZE];
    enum stage stage;
};

static void end(struct attempt *a, bool trapped, u32 code) {
    if (trapped) a->written = 0;
    a->stage = trapped ? TRAPPED : READY, a->code = code;
}

/* READ, WRITE and FINISH; the bench calls no other service. */
static void serve(struct attempt *a) {
    u32 *r = a->machine.registers, object = r[10], at = r[11];
    if (r[17] == 4) { end(a, false, object); return; }
    if ((r[17] != 1 && r[17] != 2) || object >= a->count || at % 4 != 0 || (uint64_t)at + 4 * SIZE > a->machine.bytes) {
        end(a, true, 0);
        return;
    }
    objects bit = (objects)1 << object;
    if (r[17] == 2) {
        memcpy(a->words[object], a->machine.memory + at, 4 * SIZE);
        a->written |= bit, a->machine.pc += 4;
    } else if ((a->written | a->reads) & bit) {
        memcpy(a->machine.memory + at, (a->written & bit ? a->words : a->copies)[object], 4 * SIZE);
        if (at + 4 * SIZE > a->machine.used) a->machine.used = at + 4 * SIZE;
        a->machine.pc += 4;
    } else {
        a->wanted = object, a->at = at, a->stage = FETCHING;
    }
}

static void advance(struct attempt *a) {
    enum step went = step(&a->machine);
    if (went == CALL) serve(a);
    if (went == TRAP) end(a, true, 0);
}

static void begin(struct attempt *a, const u32 *code, u32 words, u32 task, u32 arg) {
    load(&a->machine, code, words, arg);
    a->task = task, a->reads = a->written = 0, a->stage = RUNNING;
}

/* The table of versions. */

struct end { bool some; u32 point; };

struct interval { u32 lo; struct end hi; };

struct chain { u8 slots, length, order[MAX_SLOTS]; u32 bound, begins[MAX_SLOTS]; struct end ends[MAX_SLOTS]; };

struct table { u32 count; struct chain chain[MAX_OBJECTS]; };

static void install(struct chain *c, u32 slot, u32 point) {
    u32 kept = 0;
    c->ends[c->order[0]] = (struct end){true, point};
    for (u32 i = 0; i < c->length; i++)
        if (c->order[i] != slot) c->order[kept++] = c->order[i];
    memmove(c->order + 1, c->order, kept);
    c->order[0] = slot, c->length = kept + 1;
    c->begins[slot] = point, c->ends[slot].some = false, c->bound = point;
}

static bool is_before(u32 point, struct end end) { return !end.some || point < end.point; }

static bool is_empty(const struct interval *i) { return i->hi.some && i->hi.point <= i->lo; }

static void raise_to(struct interval *i, u32 point) { if (i->lo < point) i->lo = point; }

struct pin { u8 object, slot; };

struct version { u8 object, slot; u32 begin; };

struct view { struct interval interval; bool copies; struct pin pin; };

/* An outside read: the version, and what is left of the interval. */

static bool admit(const struct table *t, const struct interval *reads, u32 object, struct version *v) {
    if (is_empty(reads)) return false;
    const struct chain *c = &t->chain[object];
    for (u32 i = 0; i < c->length; i++)
        if (is_before(c->begins[c->order[i]], reads->hi)) {
            *v = (struct version){object, c->order[i], c->begins[c->order[i]]};
            return true;
        }
    return false;
}

static void opened(const struct table *t, struct interval *reads, const struct version *v) {
    struct end end = t->chain[v->object].ends[v->slot];
    raise_to(reads, v->begin);
    if (end.some && is_before(end.point, reads->hi)) reads->hi = end;
}

/* A verdict. */

struct entry { u32 number, task, point, first, code; };

struct verdict {
    enum { GRANTED, EMPTY, SLOTS, RECORDS } is;
    u32 lo, hi;
    struct entry entry;
    objects written;
    u8 slots[MAX_OBJECTS];
};

struct queue { u32 pending, next, records; };

static bool is_met(const struct interval *i, u32 begin, struct end end) {
    u32 lo = begin < i->lo ? i->lo : begin;
    return is_before(lo, end) && is_before(lo, i->hi);
}

/* What the others may read and do copy. */
struct beside { struct interval intervals[MAX_OTHERS]; struct pin pins[MAX_OTHERS]; u32 attempts, copies; };

static void gather(struct beside *b, const struct view *views, u32 count) {
    b->attempts = count, b->copies = 0;
    for (u32 k = 0; k < count; k++) {
        b->intervals[k] = views[k].interval;
        if (views[k].copies) b->pins[b->copies++] = views[k].pin;
    }
}

static bool holds(const struct chain *c, u32 slot) {
    for (u32 i = 0; i < c->length; i++)
        if (c->order[i] == slot) return true;
    return false;
}

static bool is_taken(const struct chain *c, u32 o, u32 slot, const struct beside *b) {
    if (c->order[0] == slot) return true;
    if (!holds(c, slot)) return false;
    for (u32 k = 0; k < b->copies; k++)
        if (b->pins[k].object == o && b->pins[k].slot == slot) return true;
    for (u32 k = 0; k < b->attempts; k++)
        if (is_met(&b->intervals[k], c->begins[slot], c->ends[slot])) return true;
    return false;
}

/* Takes the least object out of a set that has one. */
static u32 take_least(objects *set) {
    uint64_t low = *set, high = *set >> 64;
    u32 o = low != 0 ? __builtin_ctzll(low) : 64 + __builtin_ctzll(high);
    *set &= *set - 1;
    return o;
}

static bool free_slots(const struct table *t, objects written, const struct view *views, u32 count, struct verdict *v) {
    struct beside b;
    gather(&b, views, count);
    memset(v->slots, 0, sizeof v->slots);
    for (objects left = written; left != 0;) {
        u32 o = take_least(&left), slot = 0;
        while (slot < t->chain[o].slots && is_taken(&t->chain[o], o, slot, &b)) slot++;
        if (slot == t->chain[o].slots) { v->is = SLOTS, v->lo = o; return false; }
        v->slots[o] = slot;
    }
    return true;
}

static void validate(const struct table *t, const struct queue *q, const struct attempt *a, struct interval reads,
                     const struct view *views, u32 count, u32 clock, u32 number, struct verdict *v) {
    for (objects left = a->written; left != 0;) raise_to(&reads, t->chain[take_least(&left)].bound);
    if (is_empty(&reads)) { v->is = EMPTY, v->lo = reads.lo, v->hi = reads.hi.point; return; }
    u32 point = a->written == 0 ? reads.lo : reads.hi.some ? reads.hi.point - 1 : clock + 1;
    if (!free_slots(t, a->written, views, count, v)) return;
    if (q->pending - 1 > q->records) { v->is = RECORDS; return; }
    v->is = GRANTED, v->written = a->written;
    v->entry = (struct entry){number + 1, a->task, point, q->next, a->code};
}

/* What is timed. */

static const u32 LOOP[15] = {0x00000413, 0x00050493, 0x02048463, 0x00944433, 0x00341293, 0x00540433, 0x20802023, 0x20002303,
                             0x00535313, 0x00640433, 0xfff48493, 0xfe0490e3, 0x00040513, 0x00400893, 0x00000073};
static const u32 ONE[7] = {0x00000513, 0x20000593, 0x00200893, 0x00000073, 0x00900513, 0x00400893, 0x00000073};
static const u32 TWO[11] = {0x00000513, 0x20000593, 0x00200893, 0x00000073, 0x00100513, 0x20000593,
                            0x00200893, 0x00000073, 0x00900513, 0x00400893, 0x00000073};

static void fill(struct table *t, u32 count) {
    t->count = count;
    for (u32 o = 0; o < count; o++) {
        t->chain[o] = (struct chain){.slots = 8, .length = 1, .bound = 10};
        t->chain[o].begins[0] = 10;
        for (u32 slot = 1; o < 2 && slot < 8; slot++) install(&t->chain[o], slot, 10 + 10 * slot);
    }
}

static u32 run(struct attempt *a) {
    u32 turns = 0;
    for (; a->stage == RUNNING; turns++) advance(a);
    return turns;
}

static u32 read_rounds(const struct table *t, u32 rounds) {
    u32 sum = 0;
    for (u32 round = 0; round < rounds; round++) {
        struct interval reads = {10, {true, 11 + round % 80}};
        struct version v;
        if (!admit(t, &reads, 0, &v)) { sum += reads.hi.point; continue; }
        opened(t, &reads, &v);
        sum += reads.lo + v.slot;
    }
    return sum;
}

static u32 verdict_rounds(const struct table *t, const struct attempt *a, const struct view *views, u32 rounds) {
    struct queue q = {1, 5, MAX_RECORDS};
    u32 sum = 0;
    for (u32 round = 0; round < rounds; round++) {
        struct interval reads = {80 + round % 16, {false, 0}};
        struct verdict v;
        validate(t, &q, a, reads, views, MAX_OTHERS, 100 + round % 1024, round % 1024, &v);
        sum += v.is == GRANTED ? v.entry.point + v.slots[0] + v.slots[1] : v.lo;
    }
    return sum;
}

static u32 batch(const struct table *t, struct attempt *a, const struct view *views, const char *act, u32 rounds, u32 *sum) {
    if (strcmp(act, "turn") == 0) {
        begin(a, LOOP, 15, 4, rounds);
        u32 turns = run(a);
        *sum = a->stage == READY ? a->code : 0;
        return turns;
    }
    if (strcmp(act, "read") == 0) { *sum = read_rounds(t, rounds); return rounds; }
    bool one = strcmp(act, "one") == 0;
    begin(a, one ? ONE : TWO, one ? 7 : 11, 4, rounds);
    run(a);
    *sum = verdict_rounds(t, a, views, rounds);
    return rounds;
}

int main(int count, char **words) {
    static struct table t;
    static struct attempt a;
    static u8 memory[MEMORY];
    struct view views[MAX_OTHERS];
    u32 all = 0, sum = 0, told;
    if (count != 5) return 2;
    fill(&t, atoi(words[2]));
    a.count = t.count, a.machine.memory = memory, a.machine.bytes = MEMORY;
    for (u32 k = 0; k < MAX_OTHERS; k++) {
        u32 slot = k < 6 ? k : 7, lo = 10 + 10 * slot;
        views[k] = (struct view){{lo, {true, lo + 10}}, true, {2, slot}};
    }
    for (u32 i = 0, batches = atoi(words[3]); i < batches; i++) {
        all += batch(&t, &a, views, words[1], atoi(words[4]), &told);
        sum = sum * 31 + told;
    }
    printf("%u %u\n", all, sum);
    return 0;
}
