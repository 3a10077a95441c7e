// The seven calls as a C programmer would write them from document 01, with requests (i) and (ii): the record behind a pointer and changed in place,
// every check in the document's order. -DUNCHECKED=1 leaves out the one that the record is well made. -DWINDOW=5, -DNOTICE=1, -DHIGHEST=2147483646 and
// -DHIGHEST=2147483648 are wrong ends, which the comparison must notice.
#include "bench.h"
#include <stdbool.h>
#include <string.h>

// Our own window.
#ifndef WINDOW
#define WINDOW 4
#endif

// What a peer may grant: a SYN from LEAST to HIGHEST, any other packet up to HIGHEST past S.
#define LEAST 4
#ifndef HIGHEST
#define HIGHEST 2147483647
#endif

// A read announces a G that is so far past L, or farther.
#ifndef NOTICE
#define NOTICE 2
#endif

typedef struct {
    uint8_t state;
    uint16_t sid;
    uint32_t s, h, r, g, l;
    uint16_t lens[4];
} Session;

typedef struct {
    uint8_t role, up;
    Session slots[SLOTS];
} End;

typedef struct {
    uint8_t number, kind;
    uint16_t sid;
    uint32_t used, missing;
} Taken;

typedef struct {
    uint8_t number;
    uint16_t sid;
    uint32_t length, ack;
} Answer;

// ---- the record

static bool in_order(const Session *x) {
    const uint16_t *n = x->lens;
    if (x->state != CLOSED)
        return x->h - x->s <= HIGHEST && x->g - x->r <= WINDOW && x->g - x->l <= 1 && n[0] <= PAYLOAD && n[1] <= PAYLOAD && n[2] <= PAYLOAD && n[3] <= PAYLOAD;
    return !x->sid && !x->s && !x->h && !x->r && !x->g && !x->l && !n[0] && !n[1] && !n[2] && !n[3];
}

#ifndef UNCHECKED
#define UNCHECKED 0
#endif

static bool well_made(const End *e) {
    if (UNCHECKED) return true;
    for (int i = 0; i < SLOTS; i++) {
        const Session *x = &e->slots[i];
        if (!in_order(x)) return false;
        if (x->state == CLOSED) continue;
        if (!e->up) return false;
        for (int j = 0; j < i; j++)
            if (e->slots[j].state != CLOSED && e->slots[j].sid == x->sid) return false;
    }
    return true;
}

static Session *find(End *e, uint16_t sid) {
    for (int i = 0; i < SLOTS; i++)
        if (e->slots[i].state != CLOSED && e->slots[i].sid == sid) return &e->slots[i];
    return NULL;
}

static Session *free_slot(End *e) {
    for (int i = 0; i < SLOTS; i++)
        if (e->slots[i].state == CLOSED) return &e->slots[i];
    return NULL;
}

// H is 4 at a client; at a server it is what the SYN grants.
static Session fresh(uint16_t sid, uint32_t h) {
    return (Session){.state = ESTABLISHED, .sid = sid, .h = h, .g = WINDOW, .l = WINDOW};
}

static void down(End *e) {
    e->up = 0;
    memset(e->slots, 0, sizeof e->slots);
}

static size_t place(const End *e, const Session *x, uint32_t seqnum) {
    return 2048 * (x - e->slots) + 512 * (seqnum % 4);
}

// ---- the wire

static uint16_t get16(const uint8_t *p) {
    return p[0] | p[1] << 8;
}

static uint32_t get32(const uint8_t *p) {
    return get16(p) | (uint32_t)get16(p + 2) << 16;
}

static void put16(uint8_t *p, uint16_t x) {
    p[0] = x;
    p[1] = x >> 8;
}

static void put32(uint8_t *p, uint32_t x) {
    put16(p, x);
    put16(p + 2, x >> 16);
}

static void put_header(uint8_t *p, uint8_t flags, uint16_t sid, uint32_t length, uint32_t seqnum, uint32_t wndw) {
    p[0] = 0x53;
    p[1] = flags;
    put16(p + 2, sid);
    put32(p + 4, length);
    put32(p + 8, seqnum);
    put32(p + 12, wndw);
}

// A packet of a session: its WNDW is G, and so becomes L.
static void emit(Session *x, uint8_t *p, uint8_t flags, uint32_t length) {
    put_header(p, flags, x->sid, length, x->s, x->g);
    x->l = x->g;
}

// ---- the calls

static End start(uint8_t role) {
    End e;
    memset(&e, 0, sizeof e);
    e.role = role;
    e.up = 1;
    return e;
}

static Answer refused(uint8_t number) {
    return (Answer){.number = number};
}

static Answer open(End *e, LENT(packet)) {
    if (!well_made(e)) return refused(12);
    if (!e->up) return refused(1);
    if (e->role == SERVER) return refused(2);
    Session *x = free_slot(e);
    if (!x) return refused(3);
    if (packet_n < HEADER) return refused(9);
    uint16_t sid = 0;
    while (find(e, sid)) sid++;
    *x = fresh(sid, WINDOW);
    emit(x, packet, SYN, HEADER);
    return (Answer){.sid = sid, .length = HEADER};
}

static Answer send(End *e, uint16_t sid, GIVEN(payload), LENT(packet)) {
    if (!well_made(e)) return refused(12);
    if (!e->up) return refused(1);
    Session *x = find(e, sid);
    if (!x) return refused(4);
    if (x->state != ESTABLISHED) return refused(5);
    if (payload_n > PAYLOAD) return refused(6);
    if (x->s == x->h) return refused(7);
    if (packet_n < HEADER + payload_n) return refused(9);
    x->s++;
    emit(x, packet, DATA, HEADER + payload_n);
    memcpy(packet + HEADER, payload, payload_n);
    return (Answer){.length = HEADER + payload_n};
}

static Answer receive(End *e, uint16_t sid, GIVEN(storage), LENT(payload), LENT(ack)) {
    if (!well_made(e)) return refused(12);
    if (!e->up) return refused(1);
    Session *x = find(e, sid);
    if (!x) return refused(4);
    if (x->state == FIN_SENT) return refused(5);
    if (x->r + 4 == x->g) return refused(x->state == ESTABLISHED ? 8 : 11);
    uint32_t oldest = x->g - 3, n = x->lens[oldest % 4];
    bool announces = x->state == ESTABLISHED && x->g + 1 - x->l >= NOTICE;
    if (payload_n < n || (announces && ack_n < HEADER) || storage_n < STORAGE) return refused(9);
    x->g++;
    memcpy(payload, storage + place(e, x, oldest), n);
    if (x->state == FIN_RECEIVED) x->l = x->g;
    if (!announces) return (Answer){.length = n};
    emit(x, ack, ACK, HEADER);
    return (Answer){.length = n, .ack = HEADER};
}

static Answer finish(End *e, uint16_t sid, LENT(packet)) {
    if (!well_made(e)) return refused(12);
    if (!e->up) return refused(1);
    Session *x = find(e, sid);
    if (!x) return refused(4);
    if (x->state == FIN_SENT) return refused(5);
    if (packet_n < HEADER) return refused(9);
    emit(x, packet, FIN, HEADER);
    if (x->state == ESTABLISHED)
        x->state = FIN_SENT;
    else
        memset(x, 0, sizeof *x);
    return (Answer){.length = HEADER};
}

static Answer stop(End *e) {
    if (!well_made(e)) return refused(12);
    if (!e->up) return refused(1);
    down(e);
    return refused(0);
}

static Taken stopped(uint8_t number, uint32_t missing) {
    return (Taken){.number = number, .missing = missing};
}

static Taken fault(End *e, uint8_t number) {
    down(e);
    return stopped(number, 0);
}

static Taken take(End *e, GIVEN(bytes), LENT(storage)) {
    if (!well_made(e)) return stopped(12, 0);
    if (!e->up) return stopped(1, 0);
    if (storage_n < STORAGE) return stopped(9, 0);
    if (bytes_n < HEADER) return stopped(10, HEADER - bytes_n);
    uint8_t flags = bytes[1];
    uint16_t sid = get16(bytes + 2);
    uint32_t length = get32(bytes + 4), seqnum = get32(bytes + 8), wndw = get32(bytes + 12);
    if (bytes[0] != 0x53) return fault(e, 20);
    if (flags != SYN && flags != ACK && flags != FIN && flags != DATA) return fault(e, 21);
    if (flags == DATA ? length < HEADER || length > HEADER + PAYLOAD : length != HEADER) return fault(e, 22);
    if (bytes_n < length) return stopped(10, length - bytes_n);
    Taken done = {.kind = flags, .sid = sid, .used = length};
    Session *x = find(e, sid);
    if (flags == SYN) {
        if (e->role == CLIENT) return fault(e, 24);
        if (x) return fault(e, 25);
        x = free_slot(e);
        if (!x) return fault(e, 26);
        if (seqnum != 0 || wndw < LEAST || wndw > HIGHEST) return fault(e, 27);
        *x = fresh(sid, wndw);
        return done;
    }
    if (!x) return fault(e, 23);
    if (x->state == FIN_RECEIVED) return fault(e, 30);
    uint32_t a = x->h - x->s, b = wndw - x->s;
    if (a > b || b > HIGHEST) return fault(e, 28);
    bool next = seqnum == x->r + 1 && x->r != x->g, within = seqnum - x->r <= x->g - x->r;
    if (!(flags == DATA && x->state == ESTABLISHED ? next : within)) return fault(e, 29);
    if (x->state == FIN_SENT) {
        if (flags == FIN) memset(x, 0, sizeof *x);
        return done;
    }
    x->h = wndw;
    if (flags == FIN) x->state = FIN_RECEIVED;
    if (flags == DATA) {
        x->r = seqnum;
        x->lens[seqnum % 4] = length - HEADER;
        memcpy(storage + place(e, x, seqnum), bytes + HEADER, length - HEADER);
    }
    return done;
}

// ---- as the benchmark reaches them

static End end_of(const uint32_t *record) {
    End e;
    memset(&e, 0, sizeof e);
    e.role = record[ROLE] != 0;
    e.up = record[UP] != 0;
    for (int i = 0; i < SLOTS; i++) {
        const uint32_t *w = record + 2 + SLOT_WORDS * i;
        Session *x = &e.slots[i];
        *x = (Session){.state = w[STATE] < 3 ? w[STATE] : 3, .sid = w[SID], .s = w[S], .h = w[H], .r = w[R], .g = w[G], .l = w[L]};
        for (int k = 0; k < 4; k++) x->lens[k] = w[LENS + k];
    }
    return e;
}

static void put_end(uint32_t *record, const End *e) {
    record[ROLE] = e->role;
    record[UP] = e->up;
    for (int i = 0; i < SLOTS; i++) {
        uint32_t *w = record + 2 + SLOT_WORDS * i;
        const Session *x = &e->slots[i];
        w[STATE] = x->state, w[SID] = x->sid, w[S] = x->s, w[H] = x->h, w[R] = x->r, w[G] = x->g, w[L] = x->l;
        for (int k = 0; k < 4; k++) w[LENS + k] = x->lens[k];
    }
}

// A call's values, or those of the last of many, and the sum of all numbers and lengths.
typedef struct {
    uint64_t values[5], sum;
} Many;

static Many takes(End *e, GIVEN(bytes), LENT(storage), size_t count) {
    Many m = {0};
    size_t at = 0;
    for (size_t n = 0; n < count; n++) {
        Taken t = take(e, bytes + at, bytes_n - at, storage, storage_n);
        at += t.used;
        m = (Many){{t.number, t.used, t.kind, t.sid, t.missing}, m.sum + t.number + t.used};
    }
    return m;
}

static uint16_t next_sid(uint16_t sid, uint16_t last, uint16_t step) {
    return sid == last ? 0 : sid + step;
}

static Many sends(End *e, uint16_t sid, GIVEN(payload), LENT(packet), size_t count, uint16_t last, uint16_t step) {
    Many m = {0};
    for (size_t n = 0; n < count; n++) {
        Answer a = send(e, sid, payload, payload_n, packet, packet_n);
        sid = next_sid(sid, last, step);
        m = (Many){{a.number, a.length}, m.sum + a.number + a.length};
    }
    return m;
}

static Many receives(End *e, uint16_t sid, GIVEN(storage), LENT(payload), LENT(ack), size_t count, uint16_t last, uint16_t step) {
    Many m = {0};
    for (size_t n = 0; n < count; n++) {
        Answer a = receive(e, sid, storage, storage_n, payload, payload_n, ack, ack_n);
        sid = next_sid(sid, last, step);
        m = (Many){{a.number, a.length, a.ack}, m.sum + a.number + a.length};
    }
    return m;
}

static Many opens(End *e, LENT(packet)) {
    Answer a = open(e, packet, packet_n);
    return (Many){{a.number, a.sid, a.length}, 0};
}

static Many closes(End *e, uint16_t sid, LENT(packet)) {
    Answer a = finish(e, sid, packet, packet_n);
    return (Many){{a.number, a.length}, 0};
}

CALL(c_call) {
    End e = end_of(record);
    Many m = {0};
    (void)words;
    switch (call) {
    case START: e = start(e.role); break;
    case OPEN: m = opens(&e, out, out_n); break;
    case SEND: m = sends(&e, sid, bytes, bytes_n, out, out_n, count, last, step); break;
    case READ: m = receives(&e, sid, storage, storage_n, out, out_n, ack, ack_n, count, last, step); break;
    case CLOSE: m = closes(&e, sid, out, out_n); break;
    case SHUTDOWN: m.values[0] = stop(&e).number; break;
    default: m = takes(&e, bytes, bytes_n, storage, storage_n, count); break;
    }
    put_end(record, &e);
    memcpy(values, m.values, sizeof m.values);
    return m.sum;
}
