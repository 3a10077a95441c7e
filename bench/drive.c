// drive count: for each row of the table, a line with its name and three marks, between which its call is made 0 and `calls` times.
// drive time: for each row its name and the least time for one call, in nanoseconds.
// -DC measures the C, else it is the proved archive.
#include "bench.h"
#include <stdio.h>
#include <stdlib.h>
#include <string.h>
#include <sys/syscall.h>
#include <time.h>
#include <unistd.h>

#ifdef C
#define measured c_call
#else
#define measured bench_call
#endif

// A row: a call, so many sessions in the lowest slots, payloads of so many bytes, SIDs 0, step, 2 step, .., so many calls for each session, and G that
// far past L before the first.
// A session's four reads begin with L = G, so that the second and the fourth emit an ACK and the others none: a figure for `read` is the mean of the
// two sorts, as in any long run of reads. Each sort alone is had with one read for each session: with G 1 past L all emit an ACK, with L = G none does.
typedef struct {
    int call;
    unsigned sessions, payload, step, each, untold;
} Row;

static uint32_t record[WORDS];
static uint8_t bytes[64 * (HEADER + PAYLOAD)], storage[STORAGE], payload[PAYLOAD], packet[HEADER + PAYLOAD], ack[HEADER];
static size_t stream;

static void put32(uint8_t *p, uint32_t x) {
    for (int i = 0; i < 4; i++) p[i] = x >> 8 * i;
}

// Every window is open by four: four packets can be taken from each session, sent on it, or read.
static void prepare(Row r) {
    memset(record, 0, sizeof record);
    record[ROLE] = r.call == SEND ? CLIENT : SERVER;
    record[UP] = 1;
    for (unsigned i = 0; i < r.sessions; i++) {
        uint32_t *w = record + 2 + SLOT_WORDS * i, life = 4000000000u * i + 77;
        w[STATE] = ESTABLISHED, w[SID] = i * r.step;
        w[S] = life, w[H] = life + 4, w[R] = 3 * life, w[G] = w[R] + (r.call == READ ? 0 : 4), w[L] = w[G] - r.untold;
        for (int k = 0; k < 4; k++) w[LENS + k] = r.payload;
    }
    stream = 0;
    for (unsigned n = 0; n < 4 * r.sessions; n++) {
        const uint32_t *w = record + 2 + SLOT_WORDS * (n % r.sessions);
        uint8_t *p = bytes + stream;
        p[0] = 0x53, p[1] = DATA, p[2] = w[SID], p[3] = w[SID] >> 8;
        put32(p + 4, HEADER + r.payload);
        put32(p + 8, w[R] + 1 + n / r.sessions);
        put32(p + 12, w[H]);
        for (unsigned i = 0; i < r.payload; i++) p[HEADER + i] = n + i;
        stream += HEADER + r.payload;
    }
}

static const char *name(Row r) {
    static const char *const names[CALLS] = {[SEND] = "send", [READ] = "read", [TAKE] = "take"};
    if (r.call == READ && r.each == 1) return r.untold ? "read-with-ACK" : "read-without-ACK";
    return names[r.call];
}

// The length of the last read's ACK.
static uint64_t last_ack(Row r) {
    return r.call == READ && (r.untold + r.each) % 2 == 0 ? HEADER : 0;
}

static uint64_t values[5];

static uint64_t make(Row r, size_t calls) {
    static uint32_t lent[WORDS];
    uint16_t last = (r.sessions - 1) * r.step;
    memcpy(lent, record, sizeof lent);
    const uint8_t *given = r.call == TAKE ? bytes : payload;
    uint8_t *out = r.call == SEND ? packet : payload;
    size_t given_n = r.call == TAKE ? stream : r.payload, out_n = r.call == SEND ? sizeof packet : r.payload;
    return measured(r.call, 0, lent, WORDS, given, given_n, storage, sizeof storage, out, out_n, ack, sizeof ack, values, calls, last, r.step);
}

static void mark(void) {
    syscall(SYS_getpid);
}

static double now(void) {
    struct timespec t;
    clock_gettime(CLOCK_MONOTONIC, &t);
    return t.tv_sec * 1e9 + t.tv_nsec;
}

static double many(Row r, size_t calls) {
    double from = now();
    for (int n = 0; n < 2000; n++) make(r, calls);
    return (now() - from) / 2000;
}

// The least of seven.
static double least(Row r, size_t calls) {
    double best = many(r, calls);
    for (int n = 1; n < 7; n++) {
        double t = many(r, calls);
        if (t < best) best = t;
    }
    return best;
}

static void measure(Row r, int timed) {
    size_t calls = r.each * r.sessions;
    prepare(r);
    uint64_t none = make(r, 0);
    // Set before, since the copy emits no ACK and leaves the values alone.
    if (r.call == READ) values[2] = last_ack(r);
    uint64_t all = make(r, calls);
    if (none != 0 || all != calls * (r.payload + (r.call == READ ? 0 : HEADER)) || (r.call == READ && values[2] != last_ack(r))) {
        printf("%s of %u sessions, %u bytes: not every call was done, or the last read's ACK isn't as it should be\n", name(r), r.sessions, r.payload);
        exit(1);
    }
    fprintf(stderr, "row %s %u %u %u %zu\n", name(r), r.step, r.sessions, r.payload, calls);
    if (timed) {
        fprintf(stderr, "ns %.1f\n", (least(r, calls) - least(r, 0)) / calls);
        return;
    }
    mark();
    make(r, 0);
    mark();
    make(r, calls);
    mark();
}

int main(int argc, char **argv) {
    int timed = argc > 1 && strcmp(argv[1], "time") == 0;
    static const int calls[] = {TAKE, SEND, READ};
    static const unsigned sessions[] = {1, 4, 16}, payloads[] = {0, 64, 512};
    for (int c = 0; c < 3; c++)
        for (int k = 0; k < 3; k++)
            for (int p = 0; p < 3; p++) measure((Row){calls[c], sessions[k], payloads[p], 1, 4, 0}, timed);
    for (int k = 1; k < 3; k++) measure((Row){TAKE, sessions[k], 0, 64, 4, 0}, timed);
    for (unsigned untold = 0; untold < 2; untold++) measure((Row){READ, 16, 0, 1, 1, untold}, timed);
    return 0;
}
