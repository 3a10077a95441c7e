// The floor: the payloads are copied, and nothing is asked.
#include "bench.h"
#include <string.h>

CALL(c_call) {
    uint64_t sum = 0;
    size_t at = 0;
    for (size_t n = 0; n < count; n++) {
        size_t place = 512 * (n % 64);
        if (call == TAKE) {
            size_t length = bytes[at + 4] | bytes[at + 5] << 8;
            memcpy(storage + place, bytes + at + HEADER, length - HEADER);
            at += length;
            sum += length;
        } else if (call == SEND) {
            memcpy(out + HEADER, bytes, bytes_n);
            sum += HEADER + bytes_n;
        } else {
            memcpy(out, storage + place, out_n);
            sum += out_n;
        }
    }
    (void)sid, (void)record, (void)words, (void)storage_n, (void)ack, (void)ack_n, (void)values, (void)last, (void)step;
    return sum;
}
