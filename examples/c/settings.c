/*
 * Settings in a file that survives a pulled plug: a program to start from.
 *
 *   settings FILE init
 *   settings FILE get KEY
 *   settings FILE set KEY VALUE
 *   settings FILE delete KEY
 *   settings FILE compact
 *
 * The store itself keeps away from files; everything about them stands here. The file holds two generations, each a counter, a
 * frame and a checksum over both. In use is the one with the higher counter, of those whose checksum is right and whose frame is
 * good. A change is made in memory; then the frame is written over the other generation, with the next counter, and flushed. If
 * the plug is pulled meanwhile, that generation's checksum is wrong and the one in use stays in use. On a device the generations
 * are two erase blocks, and the calls on the file those of its flash. One program at a time uses a file.
 *
 * A file from before the store wiped what it frees is moved over: its frames are packed as they are read, and the next changes save
 * them so. Two compacts write both generations anew.
 *
 * It ends with 0; 1: no such key; 2: refused, nothing was saved; 3: no generation stands; 4: the file cannot be read or written.
 */
#define _POSIX_C_SOURCE 200809L
#include <fcntl.h>
#include <stdio.h>
#include <string.h>
#include <unistd.h>

#include "frame_store.h"

enum { F = 1024, N = 32 };                            /* the frame: docs/USING.md says how to choose them */
enum { COUNTER = 8, CHECKSUM = 4, SUMMED = COUNTER + F, GENERATION = SUMMED + CHECKSUM };
enum { DONE = 0, ABSENT = 1, REFUSED = 2, NONE_STANDS = 3, BAD_FILE = 4 };

static uint8_t generations[2][GENERATION];            /* as the file has them */
static uint8_t frame[F];                              /* the settings, to be changed */
static uint8_t packed[F];

/* CRC-32: any damage within 32 bits in a row is noticed, any other but one time in 2^32. */
static uint32_t checksum(const uint8_t *bytes) {
    uint32_t sum = 0xFFFFFFFFu;
    for (size_t i = 0; i < SUMMED; i++) {
        sum ^= bytes[i];
        for (int bit = 0; bit < 8; bit++) {
            sum = (sum >> 1) ^ (0xEDB88320u & (0u - (sum & 1u)));
        }
    }
    return ~sum;
}

static uint64_t number(const uint8_t *bytes, int width) {
    uint64_t n = 0;
    while (width-- > 0) {
        n = n << 8 | bytes[width];
    }
    return n;
}

static void set_number(uint8_t *bytes, int width, uint64_t n) {
    for (int i = 0; i < width; i++) {
        bytes[i] = (uint8_t)(n >> (8 * i));
    }
}

/* A frame from before freed bytes were wiped stands, too: here, in memory, it is packed. */
static int stands(uint8_t *generation) {
    uint8_t *held = generation + COUNTER;
    if (number(generation + SUMMED, CHECKSUM) != checksum(generation)) {
        return 0;
    }
    if (frame_check(held, F) == FRAME_DONE) {
        return 1;
    }
    if (frame_pack_before(held, F, packed, F) != FRAME_DONE) {
        return 0;
    }
    memcpy(held, packed, F);
    return 1;
}

/* Which generation is in use, or -1 if none stands. */
static int in_use(void) {
    int first = stands(generations[0]), second = stands(generations[1]);
    if (first && second) {
        return number(generations[1], COUNTER) >= number(generations[0], COUNTER);
    }
    return first ? 0 : second ? 1 : -1;
}

/* A file that is too short has zeros for what is missing, and these do not stand. */
static int load(int file) {
    for (size_t have = 0; have < sizeof generations;) {
        ssize_t more = read(file, (uint8_t *)generations + have, sizeof generations - have);
        if (more < 0) {
            return -1;
        }
        if (more == 0) {
            break;
        }
        have += (size_t)more;
    }
    return 0;
}

/* Writes the frame over the generation that is not in use. */
static int save(int file, int used) {
    int other = used == 0;
    uint8_t *next = generations[other];
    set_number(next, COUNTER, used < 0 ? 1 : number(generations[used], COUNTER) + 1);
    memcpy(next + COUNTER, frame, F);
    set_number(next + SUMMED, CHECKSUM, checksum(next));
    for (size_t done = 0; done < GENERATION;) {
        ssize_t more = pwrite(file, next + done, GENERATION - done, (off_t)(other * GENERATION + done));
        if (more <= 0) {
            return -1;
        }
        done += (size_t)more;
    }
    return fsync(file);
}

static uint32_t compact(void) {
    uint32_t given = frame_pack(frame, F, packed, F);
    if (given == FRAME_DONE) {
        memcpy(frame, packed, F);
    }
    return given;
}

/* One attempt at a change: no value is an erase; a value is put, or replaces the one that is there. */
static uint32_t attempt(const char *key, const char *value) {
    const uint8_t *k = (const uint8_t *)key, *v = (const uint8_t *)value;
    uint32_t given;
    if (value == NULL) {
        return frame_erase(frame, F, k, strlen(key));
    }
    given = frame_put(frame, F, k, strlen(key), v, strlen(value));
    if (given == FRAME_PRESENT) {
        given = frame_replace(frame, F, k, strlen(key), v, strlen(value));
    }
    return given;
}

/* What is dead may be what is lacking: after a 6 the frame is packed and the change is tried once more. */
static uint32_t change(const char *key, const char *value) {
    uint32_t given = attempt(key, value);
    if (given == FRAME_NO_ROOM && compact() == FRAME_DONE) {
        given = attempt(key, value);
    }
    return given;
}

static int get(const char *key) {
    struct frame_found found;
    uint32_t given = frame_find(frame, F, (const uint8_t *)key, strlen(key), &found);
    if (given == FRAME_DONE) {
        fwrite(frame + found.place, 1, (size_t)found.length, stdout);
        putchar('\n');
        return fflush(stdout) == 0 ? DONE : BAD_FILE;
    }
    return given == FRAME_ABSENT ? ABSENT : REFUSED;
}

static int run(int file, int words, char **word) {
    int used;
    uint32_t given;
    if (load(file) < 0) {
        return BAD_FILE;
    }
    used = in_use();
    if (words == 1 && strcmp(word[0], "init") == 0) {
        given = used < 0 ? frame_format(frame, F, F, N) : FRAME_NO_ROOM; /* never over settings that stand */
    } else if (used < 0) {
        return NONE_STANDS;
    } else {
        memcpy(frame, generations[used] + COUNTER, F);
        if (words == 2 && strcmp(word[0], "get") == 0) {
            return get(word[1]);
        } else if (words == 3 && strcmp(word[0], "set") == 0) {
            given = change(word[1], word[2]);
        } else if (words == 2 && strcmp(word[0], "delete") == 0) {
            given = change(word[1], NULL);
        } else if (words == 1 && strcmp(word[0], "compact") == 0) {
            given = compact();
        } else {
            return REFUSED;
        }
    }
    if (given == FRAME_ABSENT) {
        return ABSENT;
    }
    if (given != FRAME_DONE && given != FRAME_REPLACED) {
        return REFUSED;
    }
    return save(file, used) < 0 ? BAD_FILE : DONE;
}

int main(int count, char **words) {
    int file, ended, made = 0;
    if (count < 3) {
        fprintf(stderr, "settings FILE init | get KEY | set KEY VALUE | delete KEY | compact\n");
        return REFUSED;
    }
    if (strcmp(words[2], "init") == 0) {
        made = O_CREAT;
    }
    file = open(words[1], O_RDWR | made, 0644);
    if (file < 0) {
        return BAD_FILE;
    }
    ended = run(file, count - 2, words + 2);
    return close(file) < 0 ? BAD_FILE : ended;
}
