// What bench/ calls, twice: `bench_call`, the proved archive's, and `c_call`, that of the C in this folder. A slice is a pointer and a length.
// A record crosses as 178 words: role (0 client, 1 server), up, then eleven for each slot: state, SID, S, H, R, G, L and the four lengths.
#include <stddef.h>
#include <stdint.h>

enum { ROLE = 0, UP = 1, SLOTS = 16, SLOT_WORDS = 11, WORDS = 2 + SLOTS * SLOT_WORDS };
enum { STATE = 0, SID = 1, S = 2, H = 3, R = 4, G = 5, L = 6, LENS = 7 };
enum { CLIENT = 0, SERVER = 1 };
enum { CLOSED = 0, ESTABLISHED = 1, FIN_SENT = 2, FIN_RECEIVED = 3 };
enum { SYN = 1, ACK = 2, FIN = 4, DATA = 8 };
enum { START, OPEN, SEND, READ, CLOSE, SHUTDOWN, TAKE, CALLS };
enum { HEADER = 16, PAYLOAD = 512, STORAGE = 32768 };

#define LENT(name) uint8_t *name, size_t name##_n
#define GIVEN(name) const uint8_t *name, size_t name##_n

// One call on a record, which becomes the one that comes back; send, read and take `count` times, take on from packet to packet, the others on the
// sessions in turn: `sid`, then `step` more each time, and after `last` 0 again. Five values: the number and what the last answer gives beside it.
// What comes back is the sum of all numbers and lengths.
#define CALL(name) \
    uint64_t name(uint32_t call, uint16_t sid, uint32_t *record, size_t words, GIVEN(bytes), LENT(storage), LENT(out), LENT(ack), uint64_t values[5], \
        size_t count, uint16_t last, uint16_t step)

CALL(bench_call);
CALL(c_call);
