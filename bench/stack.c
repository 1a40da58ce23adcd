/* How many bytes of stack each proved leaf takes, at lists as long as they may be: it is run on a stack of its own that is painted
   before, and what is painted no more is counted. For x86-64, the code that libexports.a holds. No header: the compiler beside the
   prover brings none. */

typedef unsigned long word;
long write(int, const void *, word);

#define LIST const double *, word
#define OUT double *, word
#define WORDS word *, word
#define PLAN const word *, word, LIST
double stepsheaf_cosine(double);
double stepsheaf_arccosine(double);
word stepsheaf_weights(LIST, OUT);
word stepsheaf_delta(LIST, LIST, LIST, OUT);
word stepsheaf_abscissas(double, LIST, LIST, OUT);
word stepsheaf_response(double, LIST, LIST, LIST, OUT);
word stepsheaf_responses(LIST, LIST, LIST, LIST, OUT);
word stepsheaf_nodes(word, OUT);
word stepsheaf_coefficients(LIST, OUT);
word stepsheaf_taps(LIST, word, word, OUT);
word stepsheaf_desired(PLAN, double, OUT);
word stepsheaf_weight(PLAN, double, OUT);
word stepsheaf_check_response(PLAN, word, word);
word stepsheaf_adjust_bands(PLAN, word, word, OUT);
word stepsheaf_adjust_desired(PLAN, word, word, double, OUT);
word stepsheaf_adjust_weights(PLAN, word, word, double, OUT);
word stepsheaf_initial_extremal_freqs(LIST, word, OUT);
word stepsheaf_subdivide(LIST, LIST, WORDS, OUT);
word stepsheaf_colleague_matrix(LIST, WORDS, OUT);
word stepsheaf_roots(LIST, WORDS, OUT);
word stepsheaf_prune(LIST, word, WORDS);
void stepsheaf_sort_candidates(WORDS, word);

static double points[65], ones[65], values[1241], numbers[48], edges[16], c16[16], out[1300], matrix[225];
static word kinds[16], counts[4], places[2482];
static word answer;

#define LEAF(name, call) static void name(void) { answer = call; }
LEAF(nothing, 0)
LEAF(cosine, stepsheaf_cosine(1.0) < 0)
LEAF(arccosine, stepsheaf_arccosine(0.9) < 0)
LEAF(weights, stepsheaf_weights(points, 65, out, 65))
LEAF(delta, stepsheaf_delta(ones, 65, points, 65, ones, 65, out, 1))
LEAF(abscissas, stepsheaf_abscissas(0.5, points, 65, ones, 65, out, 65))
LEAF(response, stepsheaf_response(0.3, points, 65, ones, 65, ones, 65, out, 1))
LEAF(responses, stepsheaf_responses(points, 65, points, 65, ones, 65, ones, 65, out, 65))
LEAF(nodes, stepsheaf_nodes(16, out, 17))
LEAF(coefficients, stepsheaf_coefficients(points, 64, out, 64))
LEAF(taps, stepsheaf_taps(points, 64, 128, 0, out, 128))
LEAF(desired, stepsheaf_desired(kinds, 16, numbers, 48, 0.3, out, 1))
LEAF(weight, stepsheaf_weight(kinds, 16, numbers, 48, 0.3, out, 1))
LEAF(check_response, stepsheaf_check_response(kinds, 16, numbers, 48, 0, 1))
LEAF(adjust_bands, stepsheaf_adjust_bands(kinds, 16, numbers, 48, 0, 1, out, 16))
LEAF(adjust_desired, stepsheaf_adjust_desired(kinds, 16, numbers, 48, 0, 0, 1.5, out, 1))
LEAF(adjust_weights, stepsheaf_adjust_weights(kinds, 16, numbers, 48, 0, 0, 1.5, out, 1))
LEAF(first, stepsheaf_initial_extremal_freqs(edges, 16, 64, out, 65))
LEAF(subdivide, stepsheaf_subdivide(points, 65, edges, 16, counts, 1, out, 146))
LEAF(colleague, stepsheaf_colleague_matrix(c16, 16, counts, 2, matrix, 225))
LEAF(roots, stepsheaf_roots(matrix, 225, counts, 1, out, 15))
LEAF(prune, stepsheaf_prune(values, 1241, 65, places, 65))
LEAF(sort, (stepsheaf_sort_candidates(places, 2482, 1241), 0))

static const struct {
    const char *name;
    void (*call)(void);
} leaves[] = {
    {"cosine", cosine}, {"arccosine", arccosine}, {"weights", weights}, {"delta", delta}, {"abscissas", abscissas},
    {"response", response}, {"responses", responses}, {"nodes", nodes}, {"coefficients", coefficients}, {"taps", taps},
    {"desired", desired}, {"weight", weight}, {"check_response", check_response}, {"adjust_bands", adjust_bands},
    {"adjust_desired", adjust_desired}, {"adjust_weights", adjust_weights}, {"first", first}, {"subdivide", subdivide},
    {"colleague", colleague}, {"roots", roots}, {"prune", prune}, {"sort", sort},
};

enum { WORDS_OF_STACK = 1 << 15 };
#define PAINT 0x5a5a5a5a5a5a5a5aul
static word stack[WORDS_OF_STACK] __attribute__((aligned(64)));

static word bytes_of(void (*call)(void)) {
    for (word i = 0; i < WORDS_OF_STACK; i++) stack[i] = PAINT;
    __asm__ volatile("movq %%rsp, %%rbx\n\tmovq %0, %%rsp\n\tcall *%1\n\tmovq %%rbx, %%rsp"
                     :
                     : "r"(stack + WORDS_OF_STACK), "r"(call)
                     : "rbx", "rax", "rcx", "rdx", "rsi", "rdi", "r8", "r9", "r10", "r11", "memory", "cc", "xmm0", "xmm1", "xmm2",
                       "xmm3", "xmm4", "xmm5", "xmm6", "xmm7", "xmm8", "xmm9", "xmm10", "xmm11", "xmm12", "xmm13", "xmm14", "xmm15");
    word i = 0;
    while (i < WORDS_OF_STACK && stack[i] == PAINT) i++;
    return (WORDS_OF_STACK - i) * sizeof(word);
}

static void say(const char *text) {
    word n = 0;
    while (text[n]) n++;
    write(1, text, n);
}

static void number(word n) {
    char digits[24], *at = digits + 23;
    *at = 0;
    do *--at = '0' + n % 10;
    while (n /= 10);
    say(at);
}

int main(void) {
    for (int i = 0; i < 65; i++) points[i] = 1.0 - i / 32.5, ones[i] = 1.0 + i / 65.0;
    for (int i = 0; i < 8; i++) {
        double begin = i / 16.0 + 0.01;
        double band[6] = {begin, begin + 0.04, 1.0, 1.0, 1.0, 1.0};
        for (int j = 0; j < 6; j++) numbers[6 * i + j] = band[j];
        edges[2 * i] = i / 4.0 - 1.0;
        edges[2 * i + 1] = edges[2 * i] + 0.2;
    }
    double size = 1.0;
    for (int i = 0; i < 16; i++) c16[i] = size * (i % 3 ? 1.0 : -1.0), size *= 0.4;
    for (int i = 0; i < 1241; i++) {
        values[i] = (i % 2 ? 1.0 : -1.0) * (1 + i % 7);
        union {
            double x;
            word bits;
        } x = {values[i]};
        places[2 * i] = x.bits;
        places[2 * i + 1] = i;
    }
    word none = bytes_of(nothing), deepest = 0;
    for (word i = 0; i < sizeof leaves / sizeof *leaves; i++) {
        word bytes = bytes_of(leaves[i].call) - none;
        say("  ");
        say(leaves[i].name);
        say(": ");
        number(bytes);
        if (answer) say(", refused with "), number(answer);
        say("\n");
        if (bytes > deepest) deepest = bytes;
    }
    say("deepest: ");
    number(deepest);
    say(" bytes\n");
    return 0;
}
