/* Formats, commits and boots of a device in memory in plain C, for bench/device.py: the same layout, the same order of
   reads and writes, and the same checks of each word, as the crates device_format, commit_writer and recovery have.
   Called as ACT FORMAT large|single|small BATCHES ROUNDS TURNS, it prints how many turns there were and a sum of the
   device's words. */
#include <stdbool.h>
#include <stdint.h>
#include <stdio.h>
#include <stdlib.h>
#include <string.h>

typedef uint32_t u32;

enum { WORDS = 65536, PASSES = 4500000, MAX_OBJECTS = 128, MAX_RECORDS = 1024, MAX_PROGRAMS = 16, MAX_CODE = 1024 };
enum { MAX_SIZE = 64, MAX_SLOTS = 8, MAX_PAGES = 31, MAX_INDEX = 3968 };

/* The device: its words, and a log of all writes to it, as the one that the crates are tested with keeps. */

struct change { u32 at, word; };

struct device {
    u32 *start, *words;
    struct change *log;
    u32 logged, passes;
    bool fused;
    uint64_t lost;
};

static bool read_word(struct device *d, u32 at, u32 *word) {
    if (d->passes == 0 && !d->fused) { d->lost++; return false; }
    *word = d->words[at];
    return true;
}

static bool write_word(struct device *d, u32 at, u32 word) {
    if (d->passes == 0) { d->fused = false; d->lost++; return false; }
    d->passes--;
    d->words[at] = word;
    d->log[d->logged++] = (struct change){at, word};
    return true;
}

static void forget_log(struct device *d) {
    memcpy(d->start, d->words, WORDS * sizeof(u32));
    d->logged = 0;
}

/* A task set, and where its words stand. */

struct object { u32 size, slots; u32 first[MAX_SIZE]; };
struct program { u32 fuel, length; u32 code[MAX_CODE]; };
struct task { u32 id, program, arg; };

struct set {
    u32 format, memory, objects, records, programs;
    struct object object[MAX_OBJECTS];
    struct program program[MAX_PROGRAMS];
    struct task task[MAX_RECORDS];
};

struct layout {
    u32 magic, root, first_root, first_index, head_reads, pages, page_words, page_bits, index_reads, need;
    u32 page_at[MAX_PAGES][2];
    u32 slot_at[MAX_OBJECTS][MAX_SLOTS];
};

static void lay_out(struct layout *l, const struct set *s) {
    u32 index = 9 + s->objects + 3 * s->records;
    u32 at = 7 + s->objects + 2 * s->programs;
    for (u32 p = 0; p < s->programs; p++) at += s->program[p].length;
    l->first_index = at;
    if (s->format == 1) {
        l->magic = 0x314B564E, l->root = 1, l->first_root = 1;
        l->head_reads = at, l->pages = 1, l->page_words = index, l->page_bits = 0;
    } else {
        l->magic = 0x324B564E, l->root = at, l->first_root = 0x80000000;
        l->head_reads = ++at, l->page_bits = index <= 992 ? 5 : 7;
        l->page_words = 1u << l->page_bits, l->pages = (index + l->page_words - 1) / l->page_words;
    }
    l->index_reads = l->pages * l->page_words;
    for (u32 page = 0; page < l->pages; page++, at += 2 * l->page_words)
        l->page_at[page][0] = at, l->page_at[page][1] = at + l->page_words;
    for (u32 o = 0; o < s->objects; o++)
        for (u32 slot = 0; slot < s->object[o].slots; slot++, at += s->object[o].size) l->slot_at[o][slot] = at;
    l->need = at;
}

/* The state of a device, without the words of its objects. */

struct state {
    u32 clock, number, next, last_task, last_point, last_trap, last_exit, last_first, open;
    u32 boots, root;
    unsigned char slots[MAX_OBJECTS];
    struct task task[MAX_RECORDS];
};

static void first_state(struct state *x, const struct set *s, const struct layout *l) {
    memset(x, 0, sizeof *x);
    x->next = s->records + 1, x->open = s->records, x->root = l->first_root;
    memcpy(x->task, s->task, sizeof s->task);
}

static u32 state_word(const struct state *x, const struct set *s, u32 i) {
    switch (i) {
    case 0: return x->clock;
    case 1: return x->number;
    case 2: return x->next;
    case 3: return x->last_task;
    case 4: return x->last_point;
    case 5: return x->last_trap;
    case 6: return x->last_exit;
    case 7: return x->last_first;
    case 8: return x->open;
    }
    if (i < 9 + s->objects) return x->slots[i - 9];
    u32 k = i - (9 + s->objects);
    if (k / 3 >= x->open) return 0;
    const struct task *task = &x->task[k / 3];
    return k % 3 == 0 ? task->id : k % 3 == 1 ? task->program : task->arg;
}

/* A format. */

static bool put_header(struct device *d, const struct set *s, const struct layout *l) {
    u32 numbers[7] = {l->magic, s->format == 1 ? l->first_root : 0, 0, s->objects, s->records, s->programs, s->memory};
    u32 at = 1;
    for (; at < 7; at++)
        if (!write_word(d, at, numbers[at])) return false;
    for (u32 o = 0; o < s->objects; o++)
        if (!write_word(d, at++, s->object[o].size + 256 * s->object[o].slots)) return false;
    for (u32 p = 0; p < s->programs; p++)
        if (!write_word(d, at++, s->program[p].fuel) || !write_word(d, at++, s->program[p].length)) return false;
    for (u32 p = 0; p < s->programs; p++)
        for (u32 i = 0; i < s->program[p].length; i++)
            if (!write_word(d, at++, s->program[p].code[i])) return false;
    return s->format == 1 || write_word(d, l->root, l->first_root);
}

static u32 first_word(const struct set *s, u32 i) {
    if (i < 9) return i == 2 ? s->records + 1 : i == 8 ? s->records : 0;
    if (i < 9 + s->objects) return 0;
    u32 k = i - (9 + s->objects);
    if (k / 3 >= s->records) return 0;
    return k % 3 == 0 ? k / 3 + 1 : k % 3 == 1 ? s->task[k / 3].program : s->task[k / 3].arg;
}

static bool put_pages(struct device *d, const struct set *s, const struct layout *l) {
    for (u32 page = 0; page < l->pages; page++) {
        for (u32 i = 0; i < l->page_words; i++)
            if (!write_word(d, l->page_at[page][0] + i, first_word(s, page * l->page_words + i))) return false;
        for (u32 i = 0; i < l->page_words; i++)
            if (!write_word(d, l->page_at[page][1] + i, 0)) return false;
    }
    return true;
}

static bool put_objects(struct device *d, const struct set *s, const struct layout *l) {
    for (u32 o = 0; o < s->objects; o++) {
        const struct object *object = &s->object[o];
        for (u32 i = 0; i < object->size; i++)
            if (!write_word(d, l->slot_at[o][0] + i, object->first[i])) return false;
        for (u32 i = 0; i < object->size * (object->slots - 1); i++)
            if (!write_word(d, l->slot_at[o][1] + i, 0)) return false;
    }
    return true;
}

static bool format(struct device *d, const struct set *s) {
    struct layout l;
    lay_out(&l, s);
    return write_word(d, 0, 0) && put_header(d, s, &l) && put_pages(d, s, &l) && put_objects(d, s, &l)
        && write_word(d, 0, l.magic);
}

/* A commit: its tables are made at its begin, and each turn makes one write. */

struct plan { u32 number, task, point, first, exit; bool written[MAX_OBJECTS]; unsigned char slots[MAX_OBJECTS]; };

struct writer {
    struct layout layout;
    u32 objects, pages;
    unsigned char object[MAX_OBJECTS], page[MAX_PAGES], slots[MAX_OBJECTS];
    u32 words[MAX_INDEX];
    u32 root, next_root;
    enum { OBJECT, PAGE, ROOT, DONE } at;
    u32 nth, word;
};

static void finish_into(struct state *after, const struct state *before, const struct plan *p, const struct set *s) {
    after->clock = p->point > before->clock ? p->point : before->clock;
    after->number = p->number, after->next = before->next;
    after->last_task = p->task, after->last_point = p->point, after->last_trap = 0;
    after->last_exit = p->exit, after->last_first = p->first;
    after->boots = before->boots, after->root = before->root, after->open = 0;
    for (u32 o = 0; o < s->objects; o++) after->slots[o] = p->written[o] ? p->slots[o] : before->slots[o];
    for (u32 r = 0; r < before->open; r++)
        if (before->task[r].id != p->task) after->task[after->open++] = before->task[r];
}

static u32 copy_of(const struct layout *l, u32 root, u32 page) {
    return l->page_bits == 0 ? root == 2 : root >> page & 1;
}

static bool differs(const struct writer *w, const struct state *before, const struct set *s, u32 page) {
    u32 first = page * w->layout.page_words;
    for (u32 i = first; i < first + w->layout.page_words; i++)
        if (i >= 9 + s->objects && state_word(before, s, i) != w->words[i]) return true;
    return false;
}

static void begin(struct writer *w, const struct set *s, const struct plan *p, const struct state *before,
                  const struct state *after) {
    bool changed[MAX_PAGES] = {true};
    for (u32 i = 0; i < w->layout.index_reads; i++) w->words[i] = state_word(after, s, i);
    w->objects = w->pages = 0;
    for (u32 o = 0; o < s->objects; o++)
        if (p->written[o]) {
            w->object[w->objects++] = o;
            changed[(9 + o) / w->layout.page_words] = true;
        }
    memcpy(w->slots, p->slots, sizeof w->slots);
    w->root = before->root;
    w->next_root = w->layout.page_bits == 0 ? 3 - w->root : w->root;
    for (u32 page = 0; page < w->layout.pages; page++)
        if (changed[page] || differs(w, before, s, page)) {
            w->page[w->pages++] = page;
            if (w->layout.page_bits != 0) w->next_root ^= 1u << page;
        }
    w->at = w->objects > 0 ? OBJECT : PAGE;
    w->nth = w->word = 0;
}

/* One write of a commit: 1 after the last one, 0 before, and -1 where the device lost it. */
static int commit_turn(struct writer *w, struct device *d, const struct set *s) {
    if (w->at == OBJECT) {
        u32 o = w->object[w->nth];
        if (!write_word(d, w->layout.slot_at[o][w->slots[o]] + w->word, s->object[o].first[w->word])) return -1;
        if (++w->word < s->object[o].size) return 0;
        w->word = 0;
        if (++w->nth == w->objects) w->nth = 0, w->at = PAGE;
        return 0;
    }
    if (w->at == PAGE) {
        u32 page = w->page[w->nth];
        u32 place = w->layout.page_at[page][1 - copy_of(&w->layout, w->root, page)];
        if (!write_word(d, place + w->word, w->words[page * w->layout.page_words + w->word])) return -1;
        if (++w->word < w->layout.page_words) return 0;
        w->word = 0;
        if (++w->nth == w->pages) w->at = ROOT;
        return 0;
    }
    if (!write_word(d, w->layout.root, w->next_root)) return -1;
    w->at = DONE;
    return 1;
}

/* A boot: each turn reads one word and looks at it, and the last one counts the boot. */

struct boot { struct layout layout; u32 count, program, word; };

/* Whether the header has this word next: a place behind the programs is looked for from where the last one was. */
static bool is_header(struct boot *b, const struct set *s, u32 at, u32 word) {
    switch (at) {
    case 1: case 2: return true;
    case 3: return word == s->objects;
    case 4: return word == s->records;
    case 5: return word == s->programs;
    case 6: return word == s->memory;
    }
    at -= 7;
    if (at < s->objects) return word == s->object[at].size + 256 * s->object[at].slots;
    at -= s->objects;
    if (at < 2 * s->programs) return word == (at % 2 == 0 ? s->program[at / 2].fuel : s->program[at / 2].length);
    while (b->word == s->program[b->program].length) b->program++, b->word = 0;
    return word == s->program[b->program].code[b->word++];
}

static bool take_number(struct state *x, const struct set *s, u32 i, u32 word) {
    if (i == 0) { x->clock = word; return true; }
    if (i == 1) { x->number = word; return word >= x->clock; }
    if (i == 2) { x->next = word; return word != 0; }
    if (i == 8) {
        x->open = word;
        if (word > s->records) return false;
        memset(x->task, 0, word * sizeof *x->task);
        return true;
    }
    if (x->number == 0) return word == 0;
    switch (i) {
    case 3: x->last_task = word; return word != 0 && word < x->next;
    case 4: x->last_point = word; return word <= x->clock;
    case 5: x->last_trap = word; return word <= 15;
    case 6: x->last_exit = word; return x->last_trap == 0 || word == 0;
    default: x->last_first = word; return word > x->last_task && word <= x->next && x->next - word <= 8;
    }
}

static bool take(struct state *x, const struct set *s, u32 i, u32 word) {
    if (i < 9) return take_number(x, s, i, word);
    if (i < 9 + s->objects) { x->slots[i - 9] = word; return word < s->object[i - 9].slots; }
    u32 k = i - (9 + s->objects), r = k / 3;
    if (r >= x->open) return word == 0;
    if (k % 3 == 0) {
        x->task[r].id = word;
        return word != 0 && word < x->next && (r == 0 || word > x->task[r - 1].id);
    }
    if (k % 3 == 1) { x->task[r].program = word; return word < s->programs; }
    x->task[r].arg = word;
    return true;
}

static bool is_root(const struct layout *l, u32 word) {
    return l->page_bits == 0 ? word == 1 || word == 2 : word >> l->pages == 1u << (31 - l->pages);
}

static bool boot_read(struct boot *b, struct device *d, const struct set *s, struct state *x) {
    const struct layout *l = &b->layout;
    u32 word, at = b->count++;
    if (at >= l->head_reads) {
        u32 i = at - l->head_reads;
        u32 page = l->page_bits == 0 ? 0 : i >> l->page_bits;
        u32 place = l->page_at[page][copy_of(l, x->root, page)] + i - page * l->page_words;
        return read_word(d, place, &word) && take(x, s, i, word);
    }
    if (!read_word(d, at, &word)) return false;
    if (at == 0) return word == l->magic;
    if (at == l->root) { x->root = word; return is_root(l, word); }
    if (at == 2) x->boots = word;
    return is_header(b, s, at, word);
}

/* One turn of a boot: 1 after the last one, 0 before, and -1 where a word is faulty, or the device lost the call. */
static int boot_turn(struct boot *b, struct device *d, const struct set *s, struct state *x) {
    if (b->count < b->layout.head_reads + b->layout.index_reads) return boot_read(b, d, s, x) ? 0 : -1;
    if (!write_word(d, 2, x->boots + 1)) return -1;
    x->boots++;
    return 1;
}

/* The sets that are timed, and the rounds. */

static void build(struct set *s, u32 format, const char *size) {
    bool is_1 = format == 1, is_small = strcmp(size, "small") == 0;
    s->format = format, s->memory = 65536;
    s->objects = is_small ? 1 : is_1 ? 64 : 128;
    s->records = is_small ? 1 : is_1 ? 256 : 1024;
    s->programs = strcmp(size, "large") == 0 ? 16 : 1;
    for (u32 o = 0; o < s->objects; o++) {
        struct object *object = &s->object[o];
        object->size = o == 0 ? 1 : 64;
        object->slots = is_small ? 2 : is_1 || o == 0 ? 8 : o <= 26 ? 6 : 5;
        for (u32 i = 0; i < object->size; i++) object->first[i] = o * 64 + 1 + i;
    }
    for (u32 p = 0; p < s->programs; p++) {
        s->program[p].fuel = 1000000, s->program[p].length = is_small ? 12 : 1024;
        for (u32 i = 0; i < s->program[p].length; i++) s->program[p].code[i] = p * 1024 + 115 + i;
    }
    for (u32 t = 0; t < s->records; t++) s->task[t] = (struct task){t + 1, t % s->programs, t + 7};
}

/* What is done how often: after each batch the device forgets its log, and a round is left after so many turns. */
struct call { const char *act; u32 batches, rounds, most; };

/* What is kept from batch to batch. */
struct kept { struct state before, state; struct plan plan; struct writer writer; };

static void keep(struct kept *k, const struct set *s, u32 count) {
    k->plan = (struct plan){.number = 1, .task = 1, .point = 1, .first = s->records + 1};
    memset(k->plan.slots, 1, sizeof k->plan.slots);
    for (u32 o = 0; o < count; o++) k->plan.written[o] = true;
    lay_out(&k->writer.layout, s);
    first_state(&k->before, s, &k->writer.layout);
}

static bool put_once(struct device *d, const struct set *s, const char *act, u32 round, u32 *turns) {
    if (strcmp(act, "format") == 0) {
        struct layout l;
        lay_out(&l, s);
        *turns += l.need + 1;
        return format(d, s);
    }
    for (u32 at = 0; at < WORDS; at++)
        if (!write_word(d, at, round)) return false;
    *turns += WORDS;
    return true;
}

static bool commit_once(struct device *d, const struct set *s, struct kept *k, u32 most, u32 *turns) {
    finish_into(&k->state, &k->before, &k->plan, s);
    begin(&k->writer, s, &k->plan, &k->before, &k->state);
    for (u32 turn = 0; turn < most; turn++) {
        int ended = commit_turn(&k->writer, d, s);
        if (ended < 0) return false;
        ++*turns;
        if (ended) break;
    }
    return true;
}

static bool boot_once(struct device *d, const struct set *s, struct kept *k, u32 most, u32 *turns) {
    struct boot b = {.count = 0};
    lay_out(&b.layout, s);
    for (u32 turn = 0; turn < most; turn++) {
        int ended = boot_turn(&b, d, s, &k->state);
        if (ended < 0) return false;
        ++*turns;
        if (ended) break;
    }
    return true;
}

static bool run_batch(struct device *d, const struct set *s, struct kept *k, const struct call *c, u32 *turns) {
    bool is_commit = strcmp(c->act, "all") == 0 || strcmp(c->act, "one") == 0, is_boot = strcmp(c->act, "boot") == 0;
    for (u32 round = 0; round < c->rounds; round++)
        if (is_commit ? !commit_once(d, s, k, c->most, turns)
            : is_boot ? !boot_once(d, s, k, c->most, turns)
                      : c->most > 0 && !put_once(d, s, c->act, round, turns))
            return false;
    return true;
}

int main(int count, char **words) {
    static struct set s;
    static struct kept k;
    if (count != 7) return 2;
    struct call c = {words[1], atoi(words[4]), atoi(words[5]), atoi(words[6])};
    u32 turns = 0, sum = 0;
    build(&s, atoi(words[2]), words[3]);
    struct device d = {.passes = PASSES};
    d.start = calloc(WORDS, sizeof(u32)), d.words = calloc(WORDS, sizeof(u32));
    d.log = malloc((PASSES + 1) * sizeof(struct change));
    if (!d.start || !d.words || !d.log || !format(&d, &s)) return 1;
    keep(&k, &s, strcmp(c.act, "one") == 0 ? 1 : s.objects);
    for (u32 batch = 0; batch < c.batches; batch++) {
        if (!run_batch(&d, &s, &k, &c, &turns)) return 1;
        forget_log(&d);
    }
    for (u32 at = 0; at < WORDS; at++) sum = sum * 31 + d.words[at];
    printf("%u %u\n", turns, sum);
    return 0;
}
