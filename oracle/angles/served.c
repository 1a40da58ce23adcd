/* The proved functions as a filter. libexports.a holds code for x86-64 alone; so that a host of any kind can ask it, it is
   linked to this program, which a host that is none runs in an emulator.

   Without words: blocks from standard input to standard output. A block is which function (0 cosine, 1 sine, 2 arccosine)
   and how many places, 8 bytes each, then the places; the answer is a value for each.
   With the word "time" the answer to a block is one line: nanoseconds a call, throughput and latency.

   No header: the compiler beside the prover brings none. */

double stepsheaf_cosine(double);
double stepsheaf_sine(double);
double stepsheaf_arccosine(double);

typedef unsigned long word;
long read(int, void *, word);
long write(int, void *, word);
int dprintf(int, const char *, ...);
struct timespec {
    long seconds, nanoseconds;
};
int clock_gettime(int, struct timespec *);

enum { MOST = 4096, ROUNDS = 8, TURNS = 32 };
static word head[2];
static double places[MOST], values[MOST];

/* 1 where all came or went, 0 where the other side ended before the first byte, -1 else */
static int whole(long (*move)(int, void *, word), int file, void *bytes, word count) {
    word done = 0;
    while (done < count) {
        long moved = move(file, (char *)bytes + done, count - done);
        if (moved <= 0) return moved == 0 && done == 0 ? 0 : -1;
        done += moved;
    }
    return 1;
}

static double (*const functions[3])(double) = {stepsheaf_cosine, stepsheaf_sine, stepsheaf_arccosine};

static double now(void) {
    struct timespec t;
    clock_gettime(1, &t);
    return t.seconds * 1e9 + t.nanoseconds;
}

union bits {
    double number;
    word word;
};

static double lesser(double a, double b) { return a < b ? a : b; }

/* the best of some rounds: what else the host does only adds */
static void measure(double (*function)(double), word count) {
    volatile word none = 0;
    word mask = none;
    double throughput = 1e300, latency = 1e300;
    for (int round = 0; round < ROUNDS; round++) {
        double began = now();
        for (int turn = 0; turn < TURNS; turn++)
            for (word i = 0; i < count; i++) values[i] = function(places[i]);
        double between = now();
        union bits last = {.word = 0};
        for (int turn = 0; turn < TURNS; turn++)
            for (word i = 0; i < count; i++) {
                /* the place waits for the last value, of which it takes no bit */
                union bits x = {.number = places[i]};
                x.word ^= last.word & mask;
                last.number = function(x.number);
            }
        double ended = now();
        values[0] = last.number;
        throughput = lesser(between - began, throughput);
        latency = lesser(ended - between, latency);
    }
    double calls = (double)count * TURNS;
    dprintf(1, "%.1f %.1f\n", throughput / calls, latency / calls);
}

int main(int argc, char **argv) {
    (void)argv;
    for (;;) {
        int got = whole(read, 0, head, sizeof head);
        if (got == 0) return 0;
        if (got < 0 || head[0] > 2 || head[1] > MOST) return 1;
        word size = head[1] * sizeof(double);
        if (size != 0 && whole(read, 0, places, size) != 1) return 1;
        if (argc > 1) {
            measure(functions[head[0]], head[1]);
            continue;
        }
        for (word i = 0; i < head[1]; i++) values[i] = functions[head[0]](places[i]);
        if (size != 0 && whole(write, 1, values, size) != 1) return 1;
    }
}
