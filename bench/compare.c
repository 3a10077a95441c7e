// compare STEPS: the proved calls beside the C, on random streams. Each step is one call on the record that the step before left, with both given the
// same; numbers, values, the record and every lent byte must be the same after it. A stream begins with a fresh end or with any record at all.
// It fails if the two differ, if some call never gave one of its numbers, if a cell of take's table was never reached, if a read was never of one
// of its sorts (with an ACK, without one, and so on), or if a window was never of one of its sorts: wider than four, as wide as it may be, and so on.
#include "bench.h"
#include <stdio.h>
#include <stdlib.h>
#include <string.h>

static uint64_t seed = 88172645463325252ull;

// Below n.
static uint32_t any(uint32_t n) {
    seed ^= seed << 13;
    seed ^= seed >> 7;
    seed ^= seed << 17;
    return (uint32_t)(seed >> 20) % n;
}

static int once_in(uint32_t n) {
    return any(n) == 0;
}

// ---- a record

static uint32_t record[WORDS];

static uint32_t *slot(int i) {
    return record + 2 + SLOT_WORDS * i;
}

// The words of a session in use.
static const uint32_t *session(uint32_t sid) {
    for (int i = 0; i < SLOTS; i++)
        if (slot(i)[STATE] != CLOSED && slot(i)[SID] == sid) return slot(i);
    return NULL;
}

static uint32_t counter(void) {
    switch (any(3)) {
    case 0: return any(8);
    case 1: return 0u - 1 - any(8);
    default: return any(65536) << 16 | any(65536);
    }
}

static uint16_t sid_like(void) {
    switch (any(4)) {
    case 0: return any(65536);
    case 1: return 64 * any(20);
    default: return any(20);
    }
}

static uint32_t length_like(void) {
    switch (any(6)) {
    case 0: return 0;
    case 1: return PAYLOAD;
    case 2: return PAYLOAD + 1;
    default: return any(PAYLOAD + 1);
    }
}

// The widest window that a peer may grant.
#define WIDEST 2147483647u

// How much a window is open, or opens further: mostly little, at times as much as it may.
static uint32_t width(uint32_t most) {
    switch (any(10)) {
    case 0: return most;
    case 1: return most - any(3);
    case 2: return 28 + any(6);
    case 3: return (any(65536) << 16 | any(65536)) % (most + 1);
    default: return any(5);
    }
}

static void any_session(int i) {
    uint32_t *w = slot(i);
    w[STATE] = ESTABLISHED + any(3);
    w[SID] = sid_like();
    w[S] = counter(), w[H] = w[S] + width(WIDEST);
    w[R] = counter(), w[G] = w[R] + any(5), w[L] = w[G] - any(2);
    for (int k = 0; k < 4; k++) w[LENS + k] = any(PAYLOAD + 1);
    for (int j = 0; j < i; j++)
        if (slot(j)[STATE] != CLOSED && slot(j)[SID] == w[SID]) memset(w, 0, SLOT_WORDS * sizeof *w);
}

// One thing that well made may forbid.
static void damage_record(void) {
    uint32_t *w = slot(any(SLOTS)), *v = slot(any(SLOTS));
    switch (any(11)) {
    case 0: record[UP] = 0; break;
    case 1: w[STATE] = any(4); break;
    case 2: w[SID] = v[SID]; break;
    case 3: w[LENS + any(4)] = any(65536); break;
    case 4: w[LENS + any(4)] = PAYLOAD + 1; break;
    case 5: w[L] = w[G] - 2 - any(2); break;
    case 6: w[L] = w[G] + 1; break;
    case 7: w[H] = w[S] + WIDEST; break;
    case 8: w[H] = w[S] + WIDEST + 1; break;
    case 9: w[G] = w[L] = w[R] + 5; break;
    default: w[S + any(5)] = counter(); break;
    }
}

static void any_record(void) {
    memset(record, 0, sizeof record);
    record[ROLE] = any(2);
    record[UP] = 1;
    if (once_in(3)) return;
    uint32_t full = any(17);
    for (int i = 0; i < SLOTS; i++)
        if (any(16) < full) any_session(i);
    if (once_in(8)) memset(record + 1, 0, sizeof record - sizeof *record);
    if (once_in(4)) damage_record();
}

// ---- a packet for the record as it stands

static void put(uint8_t *p, uint32_t x, int n) {
    for (int i = 0; i < n; i++) p[i] = x >> 8 * i;
}

static size_t any_packet(uint8_t *p) {
    const uint32_t *w = slot(any(SLOTS));
    for (int tries = 0; tries < 8 && (w[STATE] == CLOSED || w[STATE] == FIN_RECEIVED); tries++) w = slot(any(SLOTS));
    uint32_t flags = any(8) < 5 ? DATA : once_in(4) ? FIN : ACK, sid = w[SID], sent = w[H] - w[S], left = w[G] - w[R];
    uint32_t wider = once_in(8) ? width(WIDEST) : once_in(3) ? any(5) : 0, most = sent > WIDEST ? 0 : WIDEST - sent, wndw = w[H] + (wider < most ? wider : most);
    uint32_t seqnum = w[R] + (left < 4 ? any(left + 1) : any(5));
    if (flags == DATA && w[STATE] == ESTABLISHED && !once_in(30)) seqnum = w[R] + 1;
    if (record[ROLE] == SERVER ? w[STATE] == CLOSED || once_in(12) : once_in(200)) {
        flags = SYN, seqnum = 0, wndw = 4 + (once_in(2) ? 0 : width(WIDEST - 4));
        if (!once_in(30)) sid = sid_like();
    }
    size_t length = HEADER + (flags == DATA ? any(PAYLOAD + 1) : 0);
    put(p, 0x53 | flags << 8, 2);
    put(p + 2, sid, 2);
    put(p + 4, length, 4);
    put(p + 8, seqnum, 4);
    put(p + 12, wndw, 4);
    for (size_t i = HEADER; i < length; i++) p[i] = any(256);
    return length;
}

// A WNDW just outside its range: below four or the session's H, or past the widest window.
static uint32_t wrong_wndw(const uint8_t *p) {
    const uint32_t *w = session(p[2] | p[3] << 8);
    if (p[1] == SYN || !w) return once_in(2) ? 3 : WIDEST + 1 + any(2);
    return once_in(2) ? w[H] - 1 : w[S] + WIDEST + 1 + any(2);
}

static void damage_packet(uint8_t *p) {
    switch (any(7)) {
    case 0: put(p + 4, HEADER + length_like(), 4); break;
    case 1: put(p + 8, counter(), 4); break;
    case 2: put(p + 12, counter(), 4); break;
    case 3:
    case 4: put(p + 12, wrong_wndw(p), 4); break;
    case 5: p[any(HEADER)] ^= 1 << any(8); break;
    default: p[any(HEADER)] = any(256); break;
    }
}

// ---- a step

static struct Side {
    uint32_t record[WORDS];
    uint8_t storage[STORAGE + 8], out[PAYLOAD + HEADER + 32], ack[2 * HEADER];
    uint64_t values[5];
} ours, theirs;

// The sorts of reads: in ESTABLISHED with an ACK, without one, and without one where there wasn't room for it; in FIN RECEIVED; and refused for want of
// ACK room alone.
enum { WITH_ACK, WITHOUT, ROOMLESS, AFTER_FIN, WANTING, SORTS };

// The sorts of windows: SYNs that grant more than four, the most, one more than that (27) and three (27); other packets with a WNDW more than four past
// S, as far as it may be, one farther (28) and one below H (28); sends with H more than four past S; records with H as far past S as it may be, and one
// farther (12).
enum { SYN_MORE, SYN_MOST, SYN_OVER, SYN_THREE, MORE, MOST, OVER, LESS, SENT, WIDE, TOO_WIDE, WIDTHS };

static uint64_t seen[CALLS][31], cells[2][4][9], sorts[SORTS], widths[WIDTHS];

// The state that a SID is in.
static uint32_t state_of(uint32_t sid) {
    const uint32_t *w = session(sid);
    return w ? w[STATE] : CLOSED;
}

// Counts a read by its sorts, with the record as it was before.
static void sort_read(uint32_t sid, size_t storage, size_t out, size_t ack, const uint64_t values[5]) {
    const uint32_t *w = session(sid);
    if (!w) return;
    int done = values[0] == 0, acked = values[2] != 0, established = w[STATE] == ESTABLISHED;
    sorts[WITH_ACK] += done && established && acked;
    sorts[WITHOUT] += done && established && !acked;
    sorts[ROOMLESS] += done && established && !acked && ack < HEADER;
    sorts[AFTER_FIN] += done && w[STATE] == FIN_RECEIVED;
    sorts[WANTING] += values[0] == 9 && storage >= STORAGE && out >= w[LENS + (w[G] - 3) % 4];
}

static uint32_t get32(const uint8_t *p) {
    return p[0] | p[1] << 8 | p[2] << 16 | (uint32_t)p[3] << 24;
}

// Counts a take of a packet with a whole header by its WNDW, with the record as it was before.
static void sort_take(const uint8_t *p, uint64_t number) {
    const uint32_t *w = session(p[2] | p[3] << 8);
    uint32_t wndw = get32(p + 12), b = w ? wndw - w[S] : 0;
    if (p[1] == SYN) {
        widths[SYN_MORE] += number == 0 && wndw > 4;
        widths[SYN_MOST] += number == 0 && wndw == WIDEST;
        widths[SYN_OVER] += number == 27 && get32(p + 8) == 0 && wndw == WIDEST + 1;
        widths[SYN_THREE] += number == 27 && get32(p + 8) == 0 && wndw == 3;
    } else if (w) {
        widths[MORE] += number == 0 && b > 4;
        widths[MOST] += number == 0 && b == WIDEST;
        widths[OVER] += number == 28 && b == WIDEST + 1;
        widths[LESS] += number == 28 && w[H] - w[S] > 4 && wndw == w[H] - 1;
    }
}

// Counts a call by the windows in the record as it was before.
static void sort_record(uint32_t call, uint32_t sid, uint64_t number) {
    const uint32_t *w = session(sid);
    int wide = 0, too_wide = 0;
    for (int i = 0; i < SLOTS; i++) {
        uint32_t a = slot(i)[H] - slot(i)[S];
        wide |= slot(i)[STATE] != CLOSED && a == WIDEST;
        too_wide |= slot(i)[STATE] != CLOSED && a == WIDEST + 1;
    }
    widths[SENT] += call == SEND && number == 0 && w && w[H] - w[S] > 4;
    widths[WIDE] += call != START && number != 12 && wide;
    widths[TOO_WIDE] += number == 12 && too_wide;
}

static size_t room(size_t usual) {
    return once_in(12) ? any(usual + 1) : usual;
}

static void step(unsigned long n, uint32_t damage) {
    static uint8_t bytes[PAYLOAD + HEADER + 600];
    uint32_t call = any(20), sid = once_in(8) ? sid_like() : slot(any(SLOTS))[SID];
    call = call < 10 ? TAKE : call < 13 ? SEND : call < 16 ? READ : call < 17 ? CLOSE : call < 19 ? OPEN : once_in(40) ? SHUTDOWN : once_in(40) ? START : READ;
    size_t given = length_like(), storage = once_in(60) ? STORAGE - 1 - any(2) : STORAGE + any(9), out = room(PAYLOAD + HEADER + any(32)), ack = room(HEADER + any(16));
    if (call == TAKE) {
        given = any_packet(bytes);
        if (damage && once_in(damage)) damage_packet(bytes);
        if (once_in(12)) given = any(given + 1);
        else if (once_in(3)) given += any(600);
    }
    if (once_in(20)) out = any(HEADER + 4);
    bench_call(call, sid, ours.record, WORDS, bytes, given, ours.storage, storage, ours.out, out, ours.ack, ack, ours.values, 1, 0, 0);
    c_call(call, sid, theirs.record, WORDS, bytes, given, theirs.storage, storage, theirs.out, out, theirs.ack, ack, theirs.values, 1, 0, 0);
    if (memcmp(&ours, &theirs, sizeof ours) != 0) {
        printf("step %lu, call %u: they differ\n", n, call);
        for (int i = 0; i < 5; i++) printf("  value %d: the proved call %lu, the C %lu\n", i, (unsigned long)ours.values[i], (unsigned long)theirs.values[i]);
        exit(1);
    }
    if (call == TAKE && ours.values[0] == 0) cells[record[ROLE]][state_of(ours.values[3])][ours.values[2]]++;
    if (call == READ) sort_read(sid, storage, out, ack, ours.values);
    if (call == TAKE && given >= HEADER) sort_take(bytes, ours.values[0]);
    sort_record(call, sid, ours.values[0]);
    seen[call][ours.values[0]]++;
    memcpy(record, ours.record, sizeof record);
}

// ---- each call gives each of its numbers, take does what each cell of its table says, at both ends, and reads and windows are of each sort

static const uint8_t numbers[CALLS][24] = {
    [START] = {0},
    [OPEN] = {0, 12, 1, 2, 3, 9},
    [SEND] = {0, 12, 1, 4, 5, 6, 7, 9},
    [READ] = {0, 12, 1, 4, 5, 8, 11, 9},
    [CLOSE] = {0, 12, 1, 4, 5, 9},
    [SHUTDOWN] = {0, 12, 1},
    [TAKE] = {0, 12, 1, 9, 10, 20, 21, 22, 24, 25, 26, 27, 23, 30, 28, 29},
};

static int all_seen(void) {
    static const char *const names[CALLS] = {"start", "open", "send", "read", "close", "shutdown", "take"};
    int good = 1;
    for (int c = 0; c < CALLS; c++) {
        printf("  %-8s", names[c]);
        for (int i = 0; i < 24 && (i == 0 || numbers[c][i]); i++) {
            printf(" %u:%lu", numbers[c][i], (unsigned long)seen[c][numbers[c][i]]);
            good &= seen[c][numbers[c][i]] > 0;
        }
        printf("\n");
    }
    for (int role = CLIENT; role <= SERVER; role++) {
        const uint64_t *e = cells[role][ESTABLISHED], *f = cells[role][FIN_SENT];
        printf("  %s's table: ESTABLISHED DATA %lu ACK %lu FIN %lu, FIN SENT DATA %lu ACK %lu FIN %lu\n", role ? "server" : "client",
            (unsigned long)e[DATA], (unsigned long)e[ACK], (unsigned long)e[FIN], (unsigned long)f[DATA], (unsigned long)f[ACK], (unsigned long)f[FIN]);
        good &= e[DATA] && e[ACK] && e[FIN] && f[DATA] && f[ACK] && f[FIN];
    }
    printf("  reads: ESTABLISHED with an ACK %lu, without %lu, of these with no room for one %lu, FIN RECEIVED %lu, refused for ACK room alone %lu\n",
        (unsigned long)sorts[WITH_ACK], (unsigned long)sorts[WITHOUT], (unsigned long)sorts[ROOMLESS], (unsigned long)sorts[AFTER_FIN],
        (unsigned long)sorts[WANTING]);
    for (int i = 0; i < SORTS; i++) good &= sorts[i] > 0;
    printf("  windows: SYN over 4 %lu, 2^31 - 1 %lu, 2^31 %lu, 3 %lu; WNDW - S over 4 %lu, 2^31 - 1 %lu, 2^31 %lu; WNDW = H - 1 %lu; sends with H - S over 4 %lu; "
        "H - S 2^31 - 1 %lu, 2^31 %lu\n",
        (unsigned long)widths[SYN_MORE], (unsigned long)widths[SYN_MOST], (unsigned long)widths[SYN_OVER], (unsigned long)widths[SYN_THREE],
        (unsigned long)widths[MORE], (unsigned long)widths[MOST], (unsigned long)widths[OVER], (unsigned long)widths[LESS], (unsigned long)widths[SENT],
        (unsigned long)widths[WIDE], (unsigned long)widths[TOO_WIDE]);
    for (int i = 0; i < WIDTHS; i++) good &= widths[i] > 0;
    return good;
}

int main(int argc, char **argv) {
    unsigned long steps = argc > 1 ? strtoul(argv[1], NULL, 10) : 100000, n = 0, tenth = 1;
    for (size_t i = 0; i < sizeof ours.storage; i++) ours.storage[i] = theirs.storage[i] = any(256);
    while (n < steps) {
        static const uint32_t damages[] = {0, 40, 3};
        uint32_t damage = damages[any(3)];
        any_record();
        memcpy(ours.record, record, sizeof record);
        memcpy(theirs.record, record, sizeof record);
        for (int i = any(200), ended = 0; i >= 0 && !ended; i--) {
            step(n++, damage);
            ended = (!record[UP] || ours.values[0] == 12) && once_in(3);
        }
        if (n * 10 >= steps * tenth) fprintf(stderr, "compared %lu calls\n", n), tenth = n * 10 / steps + 1;
    }
    printf("%lu calls, the same numbers, values, records and bytes; how often each number came:\n", n);
    if (all_seen()) return 0;
    printf("a number, a sort of read or a sort of window never came, or a cell was never reached\n");
    return 1;
}
