/*
 * The settings store: named records in one lent frame of bytes. No call allocates, keeps a pointer or touches anything but the
 * bytes that it is lent.
 *
 * A frame has F bytes, a multiple of 8 from 1,024 to 524,288, and N slots, an even number from 8 to 10,240; 64 + 4 N + 8 is at
 * most F. A value has 0 to 65,535 bytes. Records are kept in the frame alone: copy or store its F bytes anywhere, and lend them
 * again later.
 *
 * There are two editions, and a frame is of one of them. Edition 1, the calls that begin with frame_: a key has 1 to 112 bytes, none of
 * them 0. Edition 2, the calls that begin with frame2_: a key has 1 to 255 bytes of any kind, and a record has a stamp beside its value, 64
 * bits that are passed with it and mean what the caller wants, as the time of writing. What is said here of a frame_ call holds of the frame2_
 * call of that name with its own keys, and nothing else differs but what is told beside them. A call that is lent a frame of the other edition
 * answers 2.
 *
 * Every number that a call can give:
 *
 *   0  FRAME_DONE          done; for put, the key was new
 *   9  FRAME_REPLACED      replace: done, the key has the new value now, and in edition 2 the new stamp
 *   8  FRAME_ABSENT        look-up, replace, erase: no such key; nothing changed
 *  11  FRAME_PRESENT       put: the key is there already, with the value, and in edition 2 the stamp, that it had; nothing changed
 *   1  FRAME_BAD_LENGTH    format: F or N against the limits, or frame_len is not F; else: frame_len is no F that a frame can have,
 *                          or is not the F that the frame holds
 *   2  FRAME_NOT_GOOD      the bytes are not a good frame
 *   3  FRAME_KEY_LENGTH    the key has no byte, or more than 112 (edition 2: 255); list: the prefix has more than that
 *   4  FRAME_KEY_ZERO      the key holds a byte 0; edition 2 does not give it
 *   5  FRAME_VALUE_LENGTH  the value has more than 65,535 bytes
 *   7  FRAME_OUT_LENGTH    pack, pack_before: the output is not as long as the frame; batch: the second frame is not
 *  12  FRAME_LAYOUT        batch: not laid out as docs/FORMAT.md says
 *   6  FRAME_NO_ROOM       not enough slots or bytes are left for what the call needs
 *  10  FRAME_BUFFER        list: the buffer is too small for the first entry
 *
 * 1 to 7, 10 and 12 are refusals: nothing was changed, not one byte (batch: of the second frame some were). If several apply, the first in
 * the order 1, 2, 3, 4, 5, 7, 6, 10 is given (batch: 1, 2, 7, 12, and then what its first refused change gets);
 * 0, 8, 9 and 11 only if none applies.
 *
 * Every call but format begins with a check of the whole frame, so any bytes may be lent: what is not a good frame is answered 2.
 * The check looks at how a frame is built, not at what the records say: bytes that were changed on the way can be a good frame with
 * other records. Keep a checksum beside a frame that is stored, as examples/c/settings.c does; a packed image is one string of
 * bytes for one set of records, so that its checksum also tells whether two frames hold the same.
 *
 * Blank bytes (all 0, all 255) of the right length hold no F: they are answered 1 and not 2. But a frame whose F was damaged is
 * answered 1, too, so neither number alone says that nothing was ever stored there.
 *
 * What a call frees it overwrites with zero: the bytes of a record that was erased, of a value that was replaced by one of another length,
 * and of the nodes above them. In a good frame all bytes that nothing uses are zero, but for the up to seven that fill a record's up to a
 * multiple of 8; the check looks at them. So a frame from before freed bytes were wiped, which is one of edition 1, is answered 2 by every
 * call but frame_pack_before, which packs it once. Copies of a frame made earlier (in flash, in another buffer) are the caller's to overwrite.
 *
 * What the caller answers for, because no call can test it:
 *   - each pointer leads to as many bytes (for found, page and counts: numbers) as the length after it says, and is not NULL even
 *     if that length is 0;
 *   - what is lent for writing (frame in format, put, replace, erase and batch; second; answers; found; buffer; page; out; counts) overlaps nothing else that is lent to the
 *     same call: key and value do not lie in the frame that is written, and out is not the frame;
 *   - nobody else writes to lent bytes during the call, nor reads those that the call writes.
 */
#ifndef FRAME_STORE_H
#define FRAME_STORE_H

#include <stddef.h>
#include <stdint.h>

#ifdef __cplusplus
extern "C" {
#endif

/* A length in bytes, or a count: 64 bits on every machine, where a pointer has 32 as well. */
typedef uint64_t frame_length;

enum {
    FRAME_DONE = 0,
    FRAME_BAD_LENGTH = 1,
    FRAME_NOT_GOOD = 2,
    FRAME_KEY_LENGTH = 3,
    FRAME_KEY_ZERO = 4,
    FRAME_VALUE_LENGTH = 5,
    FRAME_NO_ROOM = 6,
    FRAME_OUT_LENGTH = 7,
    FRAME_ABSENT = 8,
    FRAME_REPLACED = 9,
    FRAME_BUFFER = 10,
    FRAME_PRESENT = 11,
    FRAME_LAYOUT = 12
};

/* Makes an empty frame of f bytes with n slots out of whatever stands there. frame_len is f. Gives 0 or 1. */
uint32_t frame_format(uint8_t *frame, frame_length frame_len, frame_length f, frame_length n);

/* Gives 0 for a good frame, else 1 or 2. Reads only. */
uint32_t frame_check(const uint8_t *frame, frame_length frame_len);

/*
 * Finds a record. Gives 0, 8, or a refusal of 1 to 4. Reads only.
 * found has room for three numbers, and three is 3: then found[0] is where the value begins, counted in bytes from the frame's start,
 * and found[1] is its length, both 0 with 8; found[2] is how many slots were visited after the check of the frame, the last one
 * included, with 0 and with 8. That is at most the key's length and 2, in every good frame. If the call is refused, or three is not 3,
 * nothing is written there. The value is frame + found[0]; it stands there until the next put, replace or erase.
 */
uint32_t frame_look_up(const uint8_t *frame, frame_length frame_len, const uint8_t *key, frame_length key_len,
                       uint64_t *found, frame_length three);

/* The same, with no count to get wrong: 8 sets place and length to 0, and a refused call leaves all three as they are. */
struct frame_found {
    uint64_t place;
    uint64_t length;
    uint64_t slots; /* visited, the last one included */
};

static inline uint32_t frame_find(const uint8_t *frame, frame_length frame_len, const uint8_t *key, frame_length key_len,
                                  struct frame_found *found) {
    uint64_t told[3] = {0, 0, 0};
    uint32_t given = frame_look_up(frame, frame_len, key, key_len, told, 3);
    if (given == 0 || given == 8) {
        found->place = told[0];
        found->length = told[1];
        found->slots = told[2];
    }
    return given;
}

/*
 * Puts a new record. Gives 0, 11 if the key is there already, or a refusal of 1 to 6; 11 changes nothing, needs no room and so is never
 * a 6. Neither key nor value may lie in the frame: a value that was found in it is copied out before it is put under another key.
 */
uint32_t frame_put(uint8_t *frame, frame_length frame_len, const uint8_t *key, frame_length key_len, const uint8_t *value,
                   frame_length value_len);

/*
 * Gives the record with this key another value. Gives 9, 8 if there is no such key, or a refusal of 1 to 6; 8 changes nothing and is
 * never a 6. Key and value as for put. A value of another length needs room beside the old one, even if it is shorter; the old one's
 * bytes are free only after a pack. To set a value whether the key is there or not, put, and replace if that gives 11.
 */
uint32_t frame_replace(uint8_t *frame, frame_length frame_len, const uint8_t *key, frame_length key_len, const uint8_t *value,
                       frame_length value_len);

/* Takes a record out. Gives 0, 8, or a refusal of 1 to 4 or 6: an erase can need room, for a smaller node or a longer prefix. */
uint32_t frame_erase(uint8_t *frame, frame_length frame_len, const uint8_t *key, frame_length key_len);

/*
 * Writes the packed image of the frame's records to out: one string of bytes for one set of records, F and N, whatever the order
 * of the calls that led there; itself a good frame, with all room that can be had given back. out_len is frame_len, else 7.
 * Gives 0, 1, 2 or 7, and never 6. The frame is only read.
 */
uint32_t frame_pack(const uint8_t *frame, frame_length frame_len, uint8_t *out, frame_length out_len);

/*
 * The same for a frame from before freed bytes were wiped: it takes whatever was a good frame then, and what is one now. Gives 0, 1, 2 or 7.
 * A device that meets a 2 on its first start with this store packs the frame by this call and goes on with out, which is a good frame.
 */
uint32_t frame_pack_before(const uint8_t *frame, frame_length frame_len, uint8_t *out, frame_length out_len);

/*
 * Tells how full a frame is. Gives 0, 1 or 2. Reads only.
 * counts has room for fourteen numbers, and fourteen is 14: then they are F, N, U, B, R, X and how many freed bodies the lists of the
 * kinds 1 to 8 have; struct frame_counts says what each is. If the call is refused, or fourteen is not 14, nothing is written there.
 */
uint32_t frame_info(const uint8_t *frame, frame_length frame_len, uint64_t *counts, frame_length fourteen);

/*
 * The same, with no count to get wrong: a refused call leaves the counts as they are. What is left is slots - slots_given and
 * bytes - bytes_given, and a freed body of the kind needed costs neither. Packing gives back the slots of all freed bodies, and at
 * least their bytes and dead_bytes. A freed body has 16, 128, 128, 24, 88, 456, 1,032 or 8 bytes, by its kind.
 */
struct frame_counts {
    uint64_t bytes;       /* F, the bytes of the frame */
    uint64_t slots;       /* N, the slots of the frame */
    uint64_t slots_given; /* U, the slots ever given out */
    uint64_t bytes_given; /* B, the bytes ever given out, with the header and the table of slots */
    uint64_t records;     /* R, the records */
    uint64_t dead_bytes;  /* X, the bytes of keys and values that are no longer used */
    uint64_t freed[8];    /* freed bodies: Leaf, Prefix, none, Node4, Node16, Node48, Node256, EmptyRoot */
};

static inline void frame_set_counts(struct frame_counts *counts, const uint64_t told[14]) {
    counts->bytes = told[0];
    counts->slots = told[1];
    counts->slots_given = told[2];
    counts->bytes_given = told[3];
    counts->records = told[4];
    counts->dead_bytes = told[5];
    for (int kind = 0; kind < 8; kind++) counts->freed[kind] = told[6 + kind];
}

static inline uint32_t frame_fullness(const uint8_t *frame, frame_length frame_len, struct frame_counts *counts) {
    uint64_t told[14] = {0};
    uint32_t given = frame_info(frame, frame_len, told, 14);
    if (given == 0) frame_set_counts(counts, told);
    return given;
}

/*
 * Lists names in byte order: writes to the buffer, for each name that begins with the prefix and sorts after the start key, its length in
 * two bytes, the lower one first, and the name; as many whole ones as fit, and nothing behind them. Gives 0, or a refusal of 1 to 4 or 10.
 * The prefix has 0 to 112 bytes; has_start 0 is no start key, whatever start is. delimiter 0 to 255 is that byte, anything else none: with
 * one, all names that share the text up to and including the first delimiter after the prefix give that text as one entry.
 * page has room for two numbers, and two is 2: then page[0] is how many entries were written, and page[1] is 1 if more remain, else 0. If
 * the call is refused, or two is not 2, nothing is written there. Where nothing is to be listed, 0 with no entry is given, for any buffer.
 * The last entry is the start key of the next page, copied out of the buffer first: it may not lie in what is written. Over the pages every
 * name appears once, if the frame is not changed meanwhile; if it is, each page is right for the frame that it saw.
 */
uint32_t frame_list(const uint8_t *frame, frame_length frame_len, const uint8_t *prefix, frame_length prefix_len, const uint8_t *start,
                    frame_length start_len, frame_length has_start, frame_length delimiter, uint8_t *buffer, frame_length buffer_len,
                    uint64_t *page, frame_length two);

enum { FRAME_NO_DELIMITER = 256 };

struct frame_page {
    uint64_t count; /* entries written */
    uint64_t more;  /* 1 if more remain, else 0 */
};

/*
 * The same, with no count to get wrong: start NULL is none, delimiter FRAME_NO_DELIMITER is none, and a refused call leaves the page as it
 * is.
 */
static inline uint32_t frame_names(const uint8_t *frame, frame_length frame_len, const uint8_t *prefix, frame_length prefix_len,
                                   const uint8_t *start, frame_length start_len, unsigned delimiter, uint8_t *buffer,
                                   frame_length buffer_len, struct frame_page *page) {
    uint64_t told[2] = {0, 0};
    uint32_t given = frame_list(frame, frame_len, prefix, prefix_len, start ? start : prefix, start ? start_len : 0, start ? 1 : 0,
                                delimiter, buffer, buffer_len, told, 2);
    if (given == 0) {
        page->count = told[0];
        page->more = told[1];
    }
    return given;
}

/* An entry of a page. */
struct frame_entry {
    const uint8_t *text;
    uint32_t length; /* at most 112, in edition 2 at most 255 */
};

/* Reads the entry that stands at a place of the buffer, its start at first, and gives the place of the next one. */
static inline const uint8_t *frame_next_entry(const uint8_t *at, struct frame_entry *entry) {
    entry->length = (uint32_t)at[0] | (uint32_t)at[1] << 8;
    entry->text = at + 2;
    return entry->text + entry->length;
}

/*
 * Makes many changes with one check: puts, replacements and erases, in their order, in the second frame, which is as long as the frame and
 * may hold anything; and if none is refused, the result goes to the frame. docs/FORMAT.md has the layout of a batch; frame_changes below
 * writes it. Gives the number, and 256 times the place, from 1, of the first refused change: 0 if all were made; 1, 2, 7 or 12 alone if
 * nothing was begun; or a change's refusal of 3 to 6 with its place, and then the frame is as it was. 8, 9 and 11 are no refusals and stop
 * nothing. After 0 the second frame is the frame, and answers has what each change answered, a byte each, as many as answers_len has room
 * for. After a refused change the second frame holds what the changes before it made, and answers is as it was.
 */
uint64_t frame_batch(uint8_t *frame, frame_length frame_len, uint8_t *second, frame_length second_len, const uint8_t *batch,
                     frame_length batch_len, uint8_t *answers, frame_length answers_len);

static inline uint32_t frame_batch_number(uint64_t given) { return (uint32_t)(given & 255); }

/* The place of the first refused change, from 1; 0 if no change was refused. */
static inline uint64_t frame_batch_place(uint64_t given) { return given >> 8; }

enum { FRAME_CHANGE_PUT = 1, FRAME_CHANGE_REPLACE = 2, FRAME_CHANGE_ERASE = 3 };

/* A batch as it is written into lent bytes: begun once, then one change after the other. The batch is bytes, length. */
struct frame_changes {
    uint8_t *bytes;
    frame_length room;   /* of bytes */
    frame_length length; /* of the batch so far */
    uint32_t count;      /* of changes so far */
    uint32_t most;       /* of changes */
};

static inline void frame_set4(uint8_t *at, uint32_t number) {
    for (int i = 0; i < 4; i++) at[i] = (uint8_t)(number >> (8 * i));
}

/* Begins a batch of at most so many changes: 4 bytes and 4 for each come first. Gives 0, or 1 if there is no room even for these. */
static inline int frame_changes_begin(struct frame_changes *changes, uint8_t *bytes, frame_length room, uint32_t most) {
    changes->bytes = bytes;
    changes->room = room;
    changes->count = 0;
    changes->most = most;
    changes->length = 4 + 4 * (frame_length)most;
    if (changes->length > room) {
        changes->most = 0;
        changes->length = 0;
        return 1;
    }
    frame_set4(bytes, 0);
    return 0;
}

/* Writes a change with so many bytes of a stamp before its key: what the two calls below share. */
static inline int frame_changes_write(struct frame_changes *changes, int kind, const uint8_t *key, frame_length key_len,
                                      const uint8_t *value, frame_length value_len, uint64_t stamp, frame_length stamp_len) {
    frame_length left = changes->room - changes->length, head = 8 + stamp_len;
    uint8_t *at = changes->bytes + changes->length;
    if (changes->count == changes->most || key_len > 65535 || left < head || left - head < key_len || left - head - key_len < value_len ||
        value_len > 4294967295u || changes->length > 4294967295u) {
        return 1;
    }
    frame_set4(changes->bytes + 4 + 4 * (size_t)changes->count, (uint32_t)changes->length);
    at[0] = (uint8_t)kind;
    at[1] = 0;
    at[2] = (uint8_t)(key_len & 255);
    at[3] = (uint8_t)(key_len >> 8);
    frame_set4(at + 4, (uint32_t)value_len);
    for (frame_length i = 0; i < stamp_len; i++) at[8 + i] = (uint8_t)(stamp >> (8 * i));
    for (frame_length i = 0; i < key_len; i++) at[head + i] = key[i];
    for (frame_length i = 0; i < value_len; i++) at[head + key_len + i] = value[i];
    changes->length += head + key_len + value_len;
    changes->count += 1;
    frame_set4(changes->bytes, changes->count);
    return 0;
}

/* Adds a change to a batch of edition 1; an erase has no value (0 bytes). Gives 0, or 1 if it has no room: then the batch is as it was. */
static inline int frame_changes_add(struct frame_changes *changes, int kind, const uint8_t *key, frame_length key_len,
                                    const uint8_t *value, frame_length value_len) {
    return frame_changes_write(changes, kind, key, key_len, value, value_len, 0, 0);
}

/* The same for a batch of edition 2, with the stamp that the record gets; that of an erase is not used. No batch has changes of both. */
static inline int frame2_changes_add(struct frame_changes *changes, int kind, const uint8_t *key, frame_length key_len,
                                     const uint8_t *value, frame_length value_len, uint64_t stamp) {
    return frame_changes_write(changes, kind, key, key_len, value, value_len, stamp, 8);
}

/*
 * Edition 2: the same calls for frames whose keys have 1 to 255 bytes of any kind, hardware addresses and long names, and whose records have
 * stamps. Parameters, answers and what is written are those of the frame_ call of that name, but that put and replace take a stamp and look-up
 * tells it, that 4 is not given, and that 3 is for a key of no byte or more than 255, and for a prefix of more than 255. Where a name is sorted
 * or cut at a delimiter, a byte 0 is a byte as any other, the smallest. There is no packing of frames from before: there are none of edition 2.
 *
 * A stamp is any 64 bits. It is part of the record as its value is: kept by every call that does not replace the record, and packed with it, so
 * that two frames whose records differ in a stamp have different images. No call compares stamps or sorts by them.
 */
uint32_t frame2_format(uint8_t *frame, frame_length frame_len, frame_length f, frame_length n);

uint32_t frame2_check(const uint8_t *frame, frame_length frame_len);

/*
 * found has room for four numbers, and four is 4: found[0] to found[2] as in edition 1, and found[3] is the record's stamp, 0 with 8. If the
 * call is refused, or four is not 4, nothing is written there.
 * found[2], the slots visited, is at most 3 and a slot for each byte of the key, two for a byte 0. Keys that share more than 112 bytes share
 * several slots, one for each 112 bytes and one for the rest.
 */
uint32_t frame2_look_up(const uint8_t *frame, frame_length frame_len, const uint8_t *key, frame_length key_len, uint64_t *found,
                        frame_length four);

/* The same, with no count to get wrong: 8 sets place, length and stamp to 0, and a refused call leaves all four as they are. */
struct frame2_found {
    uint64_t place;
    uint64_t length;
    uint64_t slots; /* visited, the last one included */
    uint64_t stamp;
};

static inline uint32_t frame2_find(const uint8_t *frame, frame_length frame_len, const uint8_t *key, frame_length key_len,
                                   struct frame2_found *found) {
    uint64_t told[4] = {0, 0, 0, 0};
    uint32_t given = frame2_look_up(frame, frame_len, key, key_len, told, 4);
    if (given == 0 || given == 8) {
        found->place = told[0];
        found->length = told[1];
        found->slots = told[2];
        found->stamp = told[3];
    }
    return given;
}

/*
 * The new record has this stamp; if the key is there already (11), its stamp stays.
 * A put needs up to seven slots: a Leaf, a node, and five for the up to 509 bytes that two keys share, bytes 0 counted twice.
 */
uint32_t frame2_put(uint8_t *frame, frame_length frame_len, const uint8_t *key, frame_length key_len, const uint8_t *value,
                    frame_length value_len, uint64_t stamp);

/* The record has the new value and this stamp. A value as long as the old one, the same one too, needs nothing and leaves nothing dead. */
uint32_t frame2_replace(uint8_t *frame, frame_length frame_len, const uint8_t *key, frame_length key_len, const uint8_t *value,
                        frame_length value_len, uint64_t stamp);

uint32_t frame2_erase(uint8_t *frame, frame_length frame_len, const uint8_t *key, frame_length key_len);

/* The one call that takes much stack: 33 to 66 KB, by the machine, on the deepest tree that a frame of edition 2 can hold (edition 1: 10 to 15 KB); every other takes at
   most 14 KB. */
uint32_t frame2_pack(const uint8_t *frame, frame_length frame_len, uint8_t *out, frame_length out_len);

uint32_t frame2_info(const uint8_t *frame, frame_length frame_len, uint64_t *counts, frame_length fourteen);

static inline uint32_t frame2_fullness(const uint8_t *frame, frame_length frame_len, struct frame_counts *counts) {
    uint64_t told[14] = {0};
    uint32_t given = frame2_info(frame, frame_len, told, 14);
    if (given == 0) frame_set_counts(counts, told);
    return given;
}

uint32_t frame2_list(const uint8_t *frame, frame_length frame_len, const uint8_t *prefix, frame_length prefix_len, const uint8_t *start,
                     frame_length start_len, frame_length has_start, frame_length delimiter, uint8_t *buffer, frame_length buffer_len,
                     uint64_t *page, frame_length two);

static inline uint32_t frame2_names(const uint8_t *frame, frame_length frame_len, const uint8_t *prefix, frame_length prefix_len,
                                    const uint8_t *start, frame_length start_len, unsigned delimiter, uint8_t *buffer,
                                    frame_length buffer_len, struct frame_page *page) {
    uint64_t told[2] = {0, 0};
    uint32_t given = frame2_list(frame, frame_len, prefix, prefix_len, start ? start : prefix, start ? start_len : 0, start ? 1 : 0,
                                 delimiter, buffer, buffer_len, told, 2);
    if (given == 0) {
        page->count = told[0];
        page->more = told[1];
    }
    return given;
}

/*
 * The batch is laid out with stamps: each change has eight bytes for one before its key, an erase too. Bytes that are a batch of edition 1 are
 * read otherwise here, and the other way round; frame2_changes_add writes a change of edition 2.
 */
uint64_t frame2_batch(uint8_t *frame, frame_length frame_len, uint8_t *second, frame_length second_len, const uint8_t *batch,
                      frame_length batch_len, uint8_t *answers, frame_length answers_len);

#ifdef __cplusplus
}
#endif

#endif
