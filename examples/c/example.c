/*
 * A frame of 1,024 bytes with 8 slots: three settings put, one replaced, one read, all listed, one erased, the rest packed, and how full the frame
 * is before and after that; then a frame from before freed bytes were wiped, three changes in one batch, and a frame that is not good. README.md
 * says how to build it.
 */
#include <stdio.h>
#include <string.h>

#include "frame_store.h"

#define F 1024
#define N 8
#define LONGEST 112 /* name */
#define CHANGES 3

static uint8_t frame[F];
static uint8_t packed[F];

static const uint8_t *bytes(const char *text) { return (const uint8_t *)text; }

static void put(const char *key, const char *value) {
    uint32_t given = frame_put(frame, F, bytes(key), strlen(key), bytes(value), strlen(value));
    printf("put %s=%s: %u\n", key, value, (unsigned)given);
}

static void replace(const char *key, const char *value) {
    uint32_t given = frame_replace(frame, F, bytes(key), strlen(key), bytes(value), strlen(value));
    printf("replace %s=%s: %u\n", key, value, (unsigned)given);
}

static void show(const uint8_t *from, const char *key) {
    struct frame_found found;
    uint32_t given = frame_find(from, F, bytes(key), strlen(key), &found);
    printf("look up %s: %u", key, (unsigned)given);
    if (given == FRAME_DONE) {
        printf(" %.*s", (int)found.length, (const char *)from + found.place);
    }
    printf("\n");
}

/* All names with a prefix, a page at a time: the buffer holds any name, and small ones two or three. */
static void list(const char *prefix, unsigned delimiter) {
    uint8_t buffer[2 + LONGEST], last[LONGEST];
    struct frame_page page = {0, 0};
    struct frame_entry entry = {NULL, 0};
    const uint8_t *start = NULL;
    printf("list %s:", prefix);
    do {
        const uint8_t *at = buffer;
        uint32_t given = frame_names(frame, F, bytes(prefix), strlen(prefix), start, entry.length, delimiter, buffer, sizeof buffer, &page);
        if (given != FRAME_DONE) {
            printf(" %u", (unsigned)given);
            break;
        }
        for (uint64_t i = 0; i < page.count; i++) {
            at = frame_next_entry(at, &entry);
            printf(" %.*s", (int)entry.length, (const char *)entry.text);
        }
        if (page.more) {
            start = memcpy(last, entry.text, entry.length); /* the next page starts after the last entry */
        }
    } while (page.more);
    printf("\n");
}

static int add(struct frame_changes *changes, int kind, const char *key, const char *value) {
    return frame_changes_add(changes, kind, bytes(key), strlen(key), bytes(value), strlen(value));
}

/* All changes with one check, or none: they are made in the second frame first. */
static void change(uint8_t *of, uint8_t *second) {
    uint8_t batch[256], answers[CHANGES] = {0};
    struct frame_changes changes;
    uint64_t given;
    if (frame_changes_begin(&changes, batch, sizeof batch, CHANGES) != 0 || add(&changes, FRAME_CHANGE_PUT, "wan", "up") != 0 ||
        add(&changes, FRAME_CHANGE_REPLACE, "line.rate", "250") != 0 || add(&changes, FRAME_CHANGE_ERASE, "host", "") != 0) {
        printf("the batch has no room\n");
        return;
    }
    given = frame_batch(of, F, second, F, changes.bytes, changes.length, answers, sizeof answers);
    printf("batch: %u at %u, answers", (unsigned)frame_batch_number(given), (unsigned)frame_batch_place(given));
    for (int i = 0; i < CHANGES; i++) printf(" %u", answers[i]);
    printf("\n");
}

static void tell(const uint8_t *of) {
    struct frame_counts counts;
    uint32_t given = frame_fullness(of, F, &counts);
    printf("info: %u", (unsigned)given);
    if (given == FRAME_DONE) {
        printf(" %u records, %u slots and %u bytes left", (unsigned)counts.records,
               (unsigned)(counts.slots - counts.slots_given), (unsigned)(counts.bytes - counts.bytes_given));
    }
    printf("\n");
}

int main(void) {
    printf("format: %u\n", (unsigned)frame_format(frame, F, F, N));
    put("line.rate", "100");
    put("line.mode", "vdsl");
    put("host", "modem");
    put("line.mode", "adsl"); /* it is there: nothing changes */
    show(frame, "line.mode");
    replace("line.mode", "adsl");
    show(frame, "line.mode");
    list("line.", FRAME_NO_DELIMITER);
    list("", '.');
    printf("erase host: %u\n", (unsigned)frame_erase(frame, F, bytes("host"), 4));
    show(frame, "host");
    tell(frame);
    printf("pack: %u\n", (unsigned)frame_pack(frame, F, packed, F));
    tell(packed);
    show(packed, "line.rate");
    printf("check: %u\n", (unsigned)frame_check(packed, F));
    frame[F - 1] = 1; /* a byte that nothing uses, as it could be before such bytes were wiped: packed once, by a call of its own */
    printf("check: %u\n", (unsigned)frame_check(frame, F));
    printf("pack before: %u\n", (unsigned)frame_pack_before(frame, F, packed, F));
    show(packed, "line.rate");
    change(packed, frame);
    show(packed, "line.rate");
    show(packed, "wan");
    frame[20] ^= 1; /* U is wrong now: no good frame, and refused by every call */
    show(frame, "line.rate");
    tell(frame);
    return 0;
}
