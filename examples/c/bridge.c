/*
 * A bridge table in a frame of edition 2: ports by hardware address, whose bytes may be 0, and one by a name of more than 112 bytes. The stamp
 * of a record is the time at which the address was last seen. Addresses of one maker are listed, in byte order, and those not seen for long are
 * forgotten in one batch; the calls of edition 1 refuse the frame.
 */
#include <stdio.h>
#include <string.h>

#include "frame_store.h"

#define F 2048
#define N 32
#define ADDRESS 6
#define CHANGES 8

static uint8_t frame[F], second[F];

static void print(const uint8_t *bytes, uint64_t length) {
    for (uint64_t i = 0; i < length; i++) printf("%s%02x", i ? ":" : "", bytes[i]);
}

static void learn(const uint8_t address[ADDRESS], uint8_t port, uint64_t seen) {
    uint32_t given = frame2_put(frame, F, address, ADDRESS, &port, 1, seen);
    if (given == FRAME_PRESENT) given = frame2_replace(frame, F, address, ADDRESS, &port, 1, seen);
    print(address, ADDRESS);
    printf(" at port %u: %u\n", port, (unsigned)given);
}

static void show(const uint8_t *key, uint64_t length) {
    struct frame2_found found;
    uint32_t given = frame2_find(frame, F, key, length, &found);
    printf(": %u", (unsigned)given);
    if (given == FRAME_DONE) printf(", port %u, seen at %u", frame[found.place], (unsigned)found.stamp);
    printf("\n");
}

int main(void) {
    static const uint8_t addresses[][ADDRESS] = {
        {0x00, 0x1a, 0x2b, 0x00, 0x00, 0x01},
        {0x00, 0x1a, 0x2b, 0x00, 0x00, 0x00},
        {0x00, 0x1a, 0x2b, 0xff, 0x00, 0x00},
        {0x00, 0x00, 0x5e, 0x00, 0x53, 0xff},
    };
    static const uint8_t newcomer[ADDRESS] = {0x00, 0x1a, 0x2b, 0x00, 0x00, 0x02};
    uint8_t name[200], buffer[256], batch[256], answers[CHANGES], port = 9;
    uint64_t now = 1000, since;
    struct frame_page page;
    struct frame_entry entry;
    struct frame_changes changes;
    struct frame2_found found;
    struct frame_counts counts;
    const uint8_t *at = buffer;
    printf("format: %u\n", (unsigned)frame2_format(frame, F, F, N));
    for (unsigned i = 0; i < sizeof addresses / sizeof addresses[0]; i++) learn(addresses[i], (uint8_t)(i + 1), now++);
    since = now;
    learn(addresses[0], 7, now++); /* it has moved */
    learn(addresses[2], 3, now++); /* it has not: the same port, and another stamp */
    print(addresses[0], ADDRESS);
    show(addresses[0], ADDRESS);
    memset(name, 'n', sizeof name);
    printf("a name of %u bytes: %u\n", (unsigned)sizeof name, (unsigned)frame2_put(frame, F, name, sizeof name, &port, 1, now++));
    printf("one byte shorter");
    show(name, sizeof name - 1);
    printf("of the maker 00:1a:2b: %u\n",
           (unsigned)frame2_names(frame, F, addresses[0], 3, NULL, 0, FRAME_NO_DELIMITER, buffer, sizeof buffer, &page));
    if (frame_changes_begin(&changes, batch, sizeof batch, CHANGES) != 0) return 1;
    for (uint64_t i = 0; i < page.count; i++) {
        at = frame_next_entry(at, &entry);
        print(entry.text, entry.length);
        show(entry.text, entry.length);
        if (frame2_find(frame, F, entry.text, entry.length, &found) == FRAME_DONE && found.stamp < since &&
            frame2_changes_add(&changes, FRAME_CHANGE_ERASE, entry.text, entry.length, entry.text, 0, 0) != 0) {
            return 1;
        }
    }
    if (frame2_changes_add(&changes, FRAME_CHANGE_PUT, newcomer, ADDRESS, &port, 1, now++) != 0) return 1;
    printf("%u changes: %u\n", (unsigned)changes.count,
           (unsigned)frame2_batch(frame, F, second, F, changes.bytes, changes.length, answers, sizeof answers));
    print(addresses[1], ADDRESS);
    show(addresses[1], ADDRESS);
    print(newcomer, ADDRESS);
    show(newcomer, ADDRESS);
    if (frame2_fullness(frame, F, &counts) == FRAME_DONE) {
        printf("%u records, %u slots left\n", (unsigned)counts.records, (unsigned)(counts.slots - counts.slots_given));
    }
    printf("check: %u, by edition 1: %u\n", (unsigned)frame2_check(frame, F), (unsigned)frame_check(frame, F));
    return 0;
}
