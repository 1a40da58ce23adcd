/* The proved leaves as a filter, for a host of any kind: libexports.a holds code for x86-64 alone.

   Standard input: parts, each a word that says how many words follow, then blocks. A block is
     which leaf (the order below), the lengths of its counts and of its output, how many whole numbers, how many lists;
     the whole numbers, a number among them by its bits; each list as its length and its members.
   Standard output, for each part: a block for each of its blocks, which is the answer and then every word of the counts and of
   the output, each with GUARD words before and after it. Before the call these words are MARK + 0, 1, .. in order. The sort works
   in its output, which is its list before the call.

   No header: the compiler beside the prover brings none. */

typedef unsigned long word;
long read(int, void *, word);
long write(int, void *, word);

/* a slice: its address and its length */
#define LIST const double *, word
#define OUT double *, word
#define WORDS word *, word
#define PLAN const word *, word, LIST
word stepsheaf_weights(LIST, OUT);
word stepsheaf_delta(LIST, LIST, LIST, OUT);
word stepsheaf_abscissas(double, LIST, LIST, OUT);
word stepsheaf_response(double, LIST, LIST, LIST, OUT);
word stepsheaf_responses(LIST, LIST, LIST, LIST, OUT);
word stepsheaf_nodes(word, OUT);
word stepsheaf_coefficients(LIST, OUT);
word stepsheaf_taps(LIST, word, word, OUT);
word stepsheaf_desired(PLAN, double, OUT);
word stepsheaf_weight(PLAN, double, OUT);
word stepsheaf_check_response(PLAN, word, word);
word stepsheaf_adjust_bands(PLAN, word, word, OUT);
word stepsheaf_adjust_desired(PLAN, word, word, double, OUT);
word stepsheaf_adjust_weights(PLAN, word, word, double, OUT);
word stepsheaf_initial_extremal_freqs(LIST, word, OUT);
word stepsheaf_subdivide(LIST, LIST, WORDS, OUT);
word stepsheaf_colleague_matrix(LIST, WORDS, OUT);
word stepsheaf_roots(LIST, WORDS, OUT);
word stepsheaf_prune(LIST, word, WORDS);
void stepsheaf_sort_candidates(WORDS, word);

enum { GUARD = 8, MOST = 1 << 21, LISTS = 4 };
#define MARK 0x5a5a5a5a5a5a0000ul
static word asked[MOST], said[MOST];

/* 1 where all came or went, 0 where the other side ended before the first byte, -1 else */
static int whole(long (*move)(int, void *, word), int file, void *bytes, word count) {
    word done = 0;
    while (done < count) {
        long moved = move(file, (char *)bytes + done, count - done);
        if (moved <= 0) return moved == 0 && done == 0 ? 0 : -1;
        done += moved;
    }
    return 1;
}

static double number(word bits) {
    union {
        word bits;
        double number;
    } both = {bits};
    return both.number;
}

#define L(i) (const double *)list[i], size[i]
#define P list[0], size[0], L(1)
static word sorted(const word *list, word size, word n, word *out) {
    for (word i = 0; i < size; i++) out[i] = list[i];
    stepsheaf_sort_candidates(out, size, n);
    return 0;
}

static word call(word leaf, const word *n, const word **list, const word *size, word *counts, word few, double *out, word room) {
    switch (leaf) {
    case 0: return stepsheaf_weights(L(0), out, room);
    case 1: return stepsheaf_delta(L(0), L(1), L(2), out, room);
    case 2: return stepsheaf_abscissas(number(n[0]), L(0), L(1), out, room);
    case 3: return stepsheaf_response(number(n[0]), L(0), L(1), L(2), out, room);
    case 4: return stepsheaf_responses(L(0), L(1), L(2), L(3), out, room);
    case 5: return stepsheaf_nodes(n[0], out, room);
    case 6: return stepsheaf_coefficients(L(0), out, room);
    case 7: return stepsheaf_taps(L(0), n[0], n[1], out, room);
    case 8: return stepsheaf_desired(P, number(n[0]), out, room);
    case 9: return stepsheaf_weight(P, number(n[0]), out, room);
    case 10: return stepsheaf_check_response(P, n[0], n[1]);
    case 11: return stepsheaf_adjust_bands(P, n[0], n[1], out, room);
    case 12: return stepsheaf_adjust_desired(P, n[0], n[1], number(n[2]), out, room);
    case 13: return stepsheaf_adjust_weights(P, n[0], n[1], number(n[2]), out, room);
    case 14: return stepsheaf_initial_extremal_freqs(L(0), n[0], out, room);
    case 15: return stepsheaf_subdivide(L(0), L(1), counts, few, out, room);
    case 16: return stepsheaf_colleague_matrix(L(0), counts, few, out, room);
    case 17: return stepsheaf_roots(L(0), counts, few, out, room);
    case 18: return stepsheaf_prune(L(0), n[0], (word *)out, room);
    case 19: return sorted(list[0], size[0], n[0], (word *)out);
    default: return ~0ul;
    }
}

int main(void) {
    for (;;) {
        word count;
        int got = whole(read, 0, &count, sizeof count);
        if (got == 0) return 0;
        if (got < 0 || count > MOST || whole(read, 0, asked, count * sizeof(word)) != 1) return 1;
        word *out = said;
        for (const word *in = asked; in < asked + count;) {
            word leaf = in[0], few = in[1], room = in[2], wholes = in[3], lists = in[4];
            const word *numbers = in + 5, *list[LISTS];
            word size[LISTS], first = few + 2 * GUARD, second = room + 2 * GUARD;
            in = numbers + wholes;
            if (lists > LISTS || out + 1 + first + second > said + MOST) return 1;
            for (word i = 0; i < lists; i++) {
                size[i] = *in++;
                list[i] = in;
                in += size[i];
            }
            word *counts = out + 1, *words = counts + first;
            for (word i = 0; i < first; i++) counts[i] = MARK + i;
            for (word i = 0; i < second; i++) words[i] = MARK + i;
            out[0] = call(leaf, numbers, list, size, counts + GUARD, few, (double *)(words + GUARD), room);
            out = words + second;
        }
        if (whole(write, 1, said, (out - said) * sizeof(word)) != 1) return 1;
    }
}
