/* The bank under fire: damaged images, damaged slots, and interleaved calls beside a run of each slot alone.

     fire IMAGES SLOTS RUNS SEED

   Everything is compared word for word, with marked words behind whatever is lent. Prints counts, and the first differences with the
   place where they arose; status 1 where there is one.

   No header: the compiler beside the prover brings none. */

typedef unsigned long word;
typedef unsigned char byte;
long write(int, const void *, word);
void exit(int);

#define SLICE(of) of *, word
#define MEMORY SLICE(word), SLICE(word), word
word stepsheaf_open(MEMORY, word, word, word, word, double, SLICE(const word), SLICE(const double));
word stepsheaf_step(MEMORY);
word stepsheaf_read(MEMORY, SLICE(double), SLICE(double), SLICE(double), SLICE(word));
word stepsheaf_save(MEMORY, SLICE(byte), SLICE(word));
word stepsheaf_restore(MEMORY, SLICE(const byte));
word stepsheaf_clear(MEMORY);

enum { SLOT = 256, SLOTS = 16, BANK = SLOT * SLOTS, SCRATCH = 8192, TAPS = 128, FREQS = 65, BYTES = 948, MORE = 8 };

/* ---- what is said */

static void say(const char *text) {
    word n = 0;
    while (text[n]) n++;
    write(1, text, n);
}

static void number(word n) {
    char digits[24], *at = digits + 23;
    *at = 0;
    do *--at = '0' + n % 10;
    while (n /= 10);
    say(at);
}

static word differences, part, turn;

static void differs(const char *what) {
    if (differences++ > 20) return;
    say("difference in part "), number(part), say(", turn "), number(turn), say(": "), say(what), say("\n");
}

#define MUST(holds, what) ((holds) ? (void)0 : differs(what))

/* ---- chance */

static word state;

static word chance(void) {
    word z = state += 0x9e3779b97f4a7c15ul;
    z = (z ^ z >> 30) * 0xbf58476d1ce4e5b9ul;
    z = (z ^ z >> 27) * 0x94d049bb133111ebul;
    return z ^ z >> 31;
}

static word below(word n) { return chance() % n; }
static double unit(void) { return (chance() >> 11) * 0x1p-53; }

static double of_bits(word bits) {
    union {
        word bits;
        double number;
    } both = {bits};
    return both.number;
}

static word bits_of(double x) {
    union {
        double number;
        word bits;
    } both = {x};
    return both.bits;
}

/* ---- memory */

static void copy(void *to, const void *from, word n) {
    for (word i = 0; i < n; i++) ((byte *)to)[i] = ((const byte *)from)[i];
}

static int same(const void *a, const void *b, word n) {
    const word *p = a, *q = b;
    for (word i = 0; i < n / 8; i++)
        if (p[i] != q[i]) return 0;
    for (word i = n & ~7ul; i < n; i++)
        if (((const byte *)a)[i] != ((const byte *)b)[i]) return 0;
    return 1;
}

static int are_zero(const word *words, word n) {
    for (word i = 0; i < n; i++)
        if (words[i]) return 0;
    return 1;
}

static void fill(void *to, word n) {
    word *words = to;
    for (word i = 0; i < n; i++) words[i] = chance();
}

/* ---- what a call is lent, each part with marked words behind it */

typedef struct {
    word slot, banked, scratched, counted;
    word bank[BANK + MORE], scratch[SCRATCH + MORE];
    double taps[TAPS + MORE], freqs[FREQS + MORE], report[2 + MORE];
    word counts[1 + MORE];
    byte bytes[BYTES + 4 + 8 * MORE];
} Lent;

/* a request as C hands it over */
typedef struct {
    word taps, symmetry, degree, exchanges, bands, kinds[16];
    double threshold, numbers[48];
} Request;

typedef struct {
    word count;
    byte bytes[BYTES + 64];
} Image;

enum { OPEN, STEP, READ, SAVE, RESTORE, CLEAR, CALLS };

typedef struct {
    word call, slot, bank, scratch, taps, freqs, bytes;
    Request request;
    Image image;
} Call;

static word make(Lent *l, const Call *c) {
    const Request *r = &c->request;
#define GIVEN l->bank, c->bank, l->scratch, c->scratch, c->slot
    switch (c->call) {
    case OPEN:
        return stepsheaf_open(GIVEN, r->taps, r->symmetry, r->degree, r->exchanges, r->threshold, r->kinds, 2 * r->bands, r->numbers,
                              6 * r->bands);
    case STEP: return stepsheaf_step(GIVEN);
    case READ: return stepsheaf_read(GIVEN, l->taps, c->taps, l->freqs, c->freqs, l->report, 2, l->counts, 1);
    case SAVE: return stepsheaf_save(GIVEN, l->bytes, c->bytes, l->counts, 1);
    case RESTORE: return stepsheaf_restore(GIVEN, c->image.bytes, c->image.count);
    default: return stepsheaf_clear(GIVEN);
    }
}

/* ---- requests, some of them out of range */

static const word few[] = {3, 4, 5, 7, 8, 9, 11, 12, 15, 20, 35};

static Request request(void) {
    Request r = {0};
    r.taps = below(40) ? few[below(11)] : below(140);
    r.symmetry = below(40) ? below(4) == 0 : below(4);
    r.degree = below(40) ? 2 + below(7) : below(20);
    r.exchanges = below(40) ? below(6) : below(120);
    r.threshold = below(40) ? 0.001 * below(100) : of_bits(chance());
    r.bands = below(40) ? 1 + below(3) : below(9);
    double at = below(3) ? 0.0 : 0.05 * unit();
    for (word i = 0; i < r.bands; i++) {
        double left = 0.5 - at, end = at + left * (0.2 + 0.5 * unit());
        if (i + 1 == r.bands && below(3)) end = 0.5;
        double *n = r.numbers + 6 * i;
        r.kinds[2 * i] = below(6) == 0;
        r.kinds[2 * i + 1] = below(6) == 0;
        n[0] = at, n[1] = end;
        n[2] = i % 2 && below(3) ? 0.0 : below(3);
        n[3] = r.kinds[2 * i] ? unit() : n[2];
        n[4] = 1 + below(5), n[5] = r.kinds[2 * i + 1] ? 1 + unit() : n[4];
        at = end + (0.5 - end) * (0.1 + 0.3 * unit());
    }
    if (below(20) == 0) r.numbers[below(48)] = of_bits(chance());
    if (below(40) == 0) r.kinds[below(16)] = below(3);
    return r;
}

/* ---- document 01's rules for an image and a request, as far as they need no arithmetic */

static word little(const byte *b, word n) {
    word w = 0;
    while (n--) w = w << 8 | b[n];
    return w;
}

static word functions(word taps, word odd) { return taps / 2 + (!odd && taps % 2); }

static int in_unit(word bits) {
    double x = of_bits(bits);
    return x >= 0.0 && x <= 1.0;
}

static int is_laid_out(const Image *i) {
    const byte *b = i->bytes;
    word n = i->count;
    if (n < 28 || b[0] != 'R' || b[1] != 'X' || b[2] != 'S' || little(b + 3, 2) != 1 || b[5] > 1) return 0;
    word taps = little(b + 6, 2), allowed = b[9], made = b[10], bands = b[11], flat = little(b + 20, 8);
    if (bands < 1 || bands > 8 || made > allowed) return 0;
    if (n != 28 + 50 * bands + 8 * (made ? functions(taps, b[5]) + 1 : 0)) return 0;
    if (!in_unit(flat) || flat >> 63 || (!made && flat)) return 0;
    for (word k = 0; k < bands; k++) {
        const byte *at = b + 28 + 50 * k;
        if (at[0] > 1 || at[1] > 1) return 0;
        if (!at[0] && !same(at + 18, at + 26, 8)) return 0;
        if (!at[1] && !same(at + 34, at + 42, 8)) return 0;
    }
    return 1;
}

static int is_in_range(const byte *b) {
    word taps = little(b + 6, 2), odd = b[5], least = taps % 2 ? (odd ? 7 : 3) : 4;
    return taps >= least && taps <= 128 && b[8] >= 2 && b[8] <= 16 && b[9] <= 100 && in_unit(little(b + 12, 8));
}

static int is_finite(double x) { return (bits_of(x) >> 52 & 2047) != 2047; }

static int do_bands_hold(const byte *b) {
    double before = -1.0;
    for (word k = 0; k < b[11]; k++) {
        const byte *at = b + 28 + 50 * k;
        double n[6];
        for (word j = 0; j < 6; j++) n[j] = of_bits(little(at + 2 + 8 * j, 8));
        if (!(n[0] >= 0.0 && n[0] < n[1] && n[1] <= 0.5) || !(before < n[0])) return 0;
        for (word j = 2; j < 6; j++)
            if (!is_finite(n[j])) return 0;
        if (!(n[4] > 0.0 && n[5] > 0.0)) return 0;
        before = n[1];
    }
    return 1;
}

static int do_points_fall(const byte *b, word count) {
    word at = 28 + 50 * b[11];
    double before = 2.0;
    for (; at + 8 <= count; at += 8) {
        double x = of_bits(little(b + at, 8));
        if (!(x >= -1.0 && x <= 1.0 && x < before)) return 0;
        before = x;
    }
    return 1;
}

/* the answer to restoring where it is plain to see; 7 stands for 7, 8 and 9, and 0 for these and for none */
static word owed(const Image *i) {
    if (!is_laid_out(i)) return 14;
    if (!is_in_range(i->bytes)) return 5;
    if (!do_bands_hold(i->bytes)) return 6;
    return do_points_fall(i->bytes, i->count) ? 0 : 7;
}

/* ---- a stock of jobs: their images and their words */

enum { STOCK = 4096 };
static struct {
    Image image;
    word words[SLOT];
} stock[STOCK];
static word stocked;

static Lent a;
static Call c;

static void usual(word call, word slot) {
    c.call = call, c.slot = slot, c.bank = BANK, c.scratch = SCRATCH;
    c.taps = TAPS, c.freqs = FREQS, c.bytes = BYTES;
}

static void lay_in(void) {
    while (stocked < STOCK) {
        usual(CLEAR, 3), make(&a, &c);
        c.request = request();
        usual(OPEN, 3);
        if (make(&a, &c)) continue;
        for (word k = below(5); k; k--) usual(STEP, 3), make(&a, &c);
        copy(stock[stocked].words, a.bank + 3 * SLOT, sizeof stock->words);
        usual(SAVE, 3);
        Image *i = &stock[stocked].image;
        if (make(&a, &c)) {
            if (below(4)) continue;
            i->count = 0;
        } else {
            i->count = a.counts[0];
            copy(i->bytes, a.bytes, i->count);
        }
        stocked++;
    }
    usual(CLEAR, 3), make(&a, &c);
}

static void put(byte *to, word w, word n) {
    for (word i = 0; i < n; i++) to[i] = w >> 8 * i;
}

/* one of the stock, changed here and there */
static Image damaged(void) {
    Image i = stock[below(STOCK)].image;
    while (!i.count) i = stock[below(STOCK)].image;
    byte *b = i.bytes;
    for (word k = below(4); k; k--) {
        switch (below(12)) {
        case 0:
            /* it may have been cut to nothing */
            if (i.count) b[below(i.count)] ^= 1 << below(8);
            break;
        case 1: b[below(28)] = chance(); break;
        case 2: i.count = below(4) ? i.count + below(9) - 4 : below(BYTES + 9); break;
        case 3: b[10] = below(3) ? below(8) : chance(); break;
        case 4: put(b + 20, below(3) ? bits_of(unit()) : chance(), 8); break;
        case 5: put(b + 12, below(3) ? bits_of(0.1 * unit()) : chance(), 8); break;
        case 6: put(b + 28 + 2 + 8 * below(6) + 50 * below(3), bits_of(0.5 * unit()), 8); break;
        case 7: put(b + 6, below(160), 2); break;
        case 8: b[8 + below(2)] = below(20); break;
        case 9: b[5] ^= 1; break;
        case 10: b[28 + below(2)] = below(3); break;
        default:
            if (i.count > 100) put(b + i.count - 8 * (1 + below(4)), bits_of(2 * unit() - 1), 8);
        }
        if (i.count > BYTES + 8) i.count = BYTES + 8;
    }
    if (below(50) == 0) {
        i.count = below(BYTES + 9);
        fill(i.bytes, sizeof i.bytes / 8);
        if (below(2)) copy(b, "RXS\1", 5);
    }
    return i;
}

/* ---- part 1: images restored into a slot between two others */

static word answers[3][17];
static Lent was;

static void images(word n) {
    fill(a.bank, BANK + MORE);
    for (turn = 1; turn <= n; turn++) {
        word slot = below(SLOTS);
        usual(CLEAR, slot), make(&a, &c);
        usual(RESTORE, slot);
        c.image = damaged();
        Image before = c.image;
        copy(was.bank, a.bank, sizeof a.bank);
        word first = chance();
        a.scratch[below(SCRATCH)] = first;
        a.scratch[SCRATCH] = first;
        word answer = make(&a, &c), o = owed(&before);
        answers[0][answer < 16 ? answer : 16]++;
        MUST(o == 0   ? answer == 0 || (answer >= 7 && answer <= 9)
             : o == 7 ? answer >= 7 && answer <= 9
                      : answer == o,
             "an image's answer");
        MUST(same(&before, &c.image, sizeof before), "an image changed");
        MUST(are_zero(a.scratch, SCRATCH) && a.scratch[SCRATCH] == first, "the scratch after a restore");
        if (answer) {
            MUST(same(was.bank, a.bank, sizeof a.bank), "the bank after a refused restore");
            continue;
        }
        copy(was.bank + slot * SLOT, a.bank + slot * SLOT, SLOT * sizeof(word));
        MUST(same(was.bank, a.bank, sizeof a.bank), "another slot after a restore");
        usual(SAVE, slot);
        fill(a.bytes, sizeof a.bytes / 8);
        copy(was.bytes, a.bytes, sizeof a.bytes);
        copy(was.bytes, before.bytes, before.count);
        MUST(make(&a, &c) == 0 && a.counts[0] == before.count, "an accepted image is not saved");
        MUST(same(was.bytes, a.bytes, sizeof a.bytes), "an accepted image saved to other bytes");
        MUST(same(was.bank, a.bank, sizeof a.bank), "the bank after a save");
    }
}

/* ---- part 2: a slot's words, changed here and there */

static void slots(word n) {
    for (turn = 1; turn <= n; turn++) {
        word slot = below(SLOTS), *w = a.bank + slot * SLOT;
        copy(w, stock[below(STOCK)].words, SLOT * sizeof(word));
        for (word k = below(3); k; k--) {
            word at = below(3) ? below(12) : below(4) ? below(142) : below(SLOT);
            switch (below(6)) {
            case 0: w[at] = chance(); break;
            case 1: w[at] ^= 1ul << below(64); break;
            case 2: w[at] += 1; break;
            case 3: w[at] = below(20); break;
            case 4: w[at] = bits_of(unit()); break;
            default: w[at] = 0;
            }
        }
        if (below(50) == 0) fill(w, SLOT);
        copy(was.bank, a.bank, sizeof a.bank);
        usual(SAVE, slot);
        word answer = make(&a, &c);
        answers[1][answer < 16 ? answer : 16]++;
        MUST(same(was.bank, a.bank, sizeof a.bank), "the bank after a save");
        MUST(answer == 0 || answer == 3 || answer == 4 || (answer >= 9 && answer <= 13), "a slot's answer");
        word count = a.counts[0];
        for (word call = 0; call < 3; call++) {
            /* a slot that saving takes is taken by every other call, and else refused alike */
            usual(call == 0 ? READ : call == 1 ? OPEN : RESTORE, slot);
            if (call == 1) c.request = request();
            if (call == 2) c.image = damaged();
            copy(was.taps, a.taps, sizeof a.taps);
            copy(was.freqs, a.freqs, sizeof a.freqs);
            word other = make(&a, &c);
            if (answer == 4) MUST(other == 4, "a slot that is no job for one call is one for another");
            else if (answer == 0 || answer >= 9) MUST(call == 0 ? other == answer || other == 3 || other == 9 : other == 3, "the answers of two calls");
            if (answer == 3) break;
            if (other) MUST(same(was.taps, a.taps, sizeof a.taps) && same(was.freqs, a.freqs, sizeof a.freqs), "outputs after a refusal");
            MUST(same(was.bank, a.bank, sizeof a.bank), "the bank after a call that writes nothing to it");
        }
        if (answer == 0) {
            /* what was saved, restored in the next slot, has the same words */
            word next = (slot + 1) % SLOTS;
            usual(CLEAR, next), make(&a, &c);
            usual(RESTORE, next);
            c.image.count = count;
            copy(c.image.bytes, a.bytes, count);
            MUST(make(&a, &c) == 0, "a saved job is not restored");
            MUST(same(a.bank + next * SLOT, w, SLOT * sizeof(word)), "a saved and restored job has other words");
        }
        copy(was.bank, a.bank, sizeof a.bank);
        usual(STEP, slot);
        word stepped = make(&a, &c);
        if (answer == 4) MUST(stepped == 4, "a step of no job");
        if (answer >= 9) MUST(stepped == answer, "a failed job's step");
        if (stepped && stepped < 9) MUST(same(was.bank, a.bank, sizeof a.bank), "the bank after a refused step");
    }
}

/* ---- part 3: interleaved calls, and each slot's calls in a bank of its own whose other slots are never jobs of the run */

static Lent alone[SLOTS];

static word near(word limit) { return below(12) ? limit : below(3) ? limit + below(3) - 1 : below(limit); }

static void compare(const Lent *l, word slot) {
    MUST(same(a.bank + slot * SLOT, l->bank + slot * SLOT, SLOT * sizeof(word)), "a slot's words differ from the run alone");
}

static word made[CALLS], worked[CALLS], runs_of_calls;

static void runs(word n) {
    for (word s = 0; s < SLOTS; s++) fill(alone[s].bank, BANK + MORE);
    for (turn = 1; turn <= n; turn++) {
        for (word s = 0; s < SLOTS; s++) {
            word *w = a.bank + s * SLOT;
            switch (below(8)) {
            case 0: copy(w, stock[below(STOCK)].words, SLOT * sizeof(word)); break;
            case 1: fill(w, SLOT); break;
            default:
                for (word k = 0; k < SLOT; k++) w[k] = 0;
            }
            copy(alone[s].bank + s * SLOT, w, SLOT * sizeof(word));
        }
        word live = 1 + below(SLOTS);
        for (word k = 8 + below(24); k; k--) {
            usual(below(20) ? (word[]){OPEN, STEP, STEP, STEP, READ, SAVE, RESTORE}[below(7)] : CLEAR, below(live));
            if (c.call == OPEN) c.request = request();
            if (c.call == RESTORE) c.image = damaged();
            if (below(30) == 0) {
                c.bank = near(BANK), c.scratch = near(SCRATCH);
                c.taps = near(TAPS), c.freqs = near(FREQS), c.bytes = near(BYTES);
                if (below(3) == 0) c.slot = below(3) ? SLOTS + below(3) : chance();
            }
            Lent *l = &alone[c.slot % SLOTS];
            for (word i = 0; i < 3; i++) a.scratch[below(SCRATCH + MORE)] = chance(), l->scratch[below(SCRATCH + MORE)] = chance();
            copy(l->taps, a.taps, sizeof a.taps);
            copy(l->freqs, a.freqs, sizeof a.freqs);
            copy(l->report, a.report, sizeof a.report);
            copy(l->counts, a.counts, sizeof a.counts);
            copy(l->bytes, a.bytes, sizeof a.bytes);
            word here = make(&a, &c), there = make(l, &c);
            made[c.call]++, worked[c.call] += here == 0, runs_of_calls++;
            answers[2][here < 16 ? here : 16]++;
            MUST(here == there, "an answer differs from the run alone");
            MUST(same(a.taps, l->taps, sizeof a.taps) && same(a.freqs, l->freqs, sizeof a.freqs), "taps or frequencies differ");
            MUST(same(a.report, l->report, sizeof a.report) && same(a.counts, l->counts, sizeof a.counts), "a report differs");
            MUST(same(a.bytes, l->bytes, sizeof a.bytes), "saved bytes differ");
            if (here != 1) MUST(are_zero(a.scratch, SCRATCH) && are_zero(l->scratch, SCRATCH), "the scratch after a call");
            compare(l, c.slot % SLOTS);
        }
        for (word s = 0; s < SLOTS; s++) compare(&alone[s], s);
    }
}

static word parsed(const char *text) {
    word n = 0;
    while (*text) n = 10 * n + (*text++ - '0');
    return n;
}

static void tally(const char *what, const word *counts) {
    say(what);
    for (word i = 0; i < 17; i++)
        if (counts[i]) say(i ? ", " : " "), number(i), say(": "), number(counts[i]);
    say("\n");
}

int main(int count, char **words) {
    if (count != 5) {
        say("usage: fire IMAGES SLOTS RUNS SEED\n");
        return 2;
    }
    state = parsed(words[4]);
    lay_in();
    part = 1, images(parsed(words[1]));
    tally("images, by answer:", answers[0]);
    part = 2, slots(parsed(words[2]));
    tally("slots, by what saving answers:", answers[1]);
    part = 3, runs(parsed(words[3]));
    number(runs_of_calls), say(" calls in "), number(parsed(words[3])), tally(" runs, by answer:", answers[2]);
    const char *names[] = {"open", "step", "read", "save", "restore", "clear"};
    for (word i = 0; i < CALLS; i++) say("  "), say(names[i]), say(": "), number(made[i]), say(" made, "), number(worked[i]), say(" not refused\n");
    number(differences), say(" differences\n");
    return differences > 0;
}
