/*
 * Runs a list of calls (standard input) on the archive that it is linked with, and writes a line for each call: its number in the list, its
 * name, its answer, and what every lent buffer holds after it. Two machines that did the same write the same bytes. Without a C library.
 *
 * A list has one command in a line; places are counted from the start of one arena of bytes:
 *
 *   scene NAME              is written as it stands
 *   fill AT LENGTH BYTE     sets bytes
 *   random AT LENGTH SEED   sets bytes by a xorshift generator
 *   bytes AT HEX            sets bytes
 *   copy FROM TO LENGTH     copies bytes
 *   flip AT MASK            changes the bits of one byte
 *   hash AT LENGTH          writes the SHA-256 of bytes
 *   call NAME LENT ..       AT:LENGTH lends bytes, AT*COUNT numbers of 64 bits, =NUMBER is a number
 *   write WHAT              from here on a line ends with every lent buffer (buffers, as at first), with no more than the answer (answers),
 *                           or with the bytes of stack (stack) or the nanoseconds (time) that the call took
 *   wrong answer STEP       a wrong runner: in that step the answer is another one,
 *   wrong byte STEP         or the last byte of the first buffer is
 *
 * Bytes are written by their SHA-256, with FENCE bytes before and after the buffer; numbers one by one, with one before and one after.
 */
#include <stddef.h>
#include <stdint.h>

#include "frame_store.h"

#define STACK_BYTES 131072
#include "start.h"

enum {
    FENCE = 16,
    ARENA_BYTES = 3 << 20,
    MOST_LENT = 8,
    LONGEST_WORD = 1 << 10,
    MOST_DIGITS = 20,
    INPUT_BYTES = 64 << 10,
    OUTPUT_BYTES = 64 << 10
};

#define PAINT ((uintptr_t)0xA5A5A5A5A5A5A5A5u)

typedef char lengths_have_64_bits[sizeof(frame_length) == sizeof(uint64_t) ? 1 : -1];

__attribute__((aligned(16))) static uint8_t arena[ARENA_BYTES];
/* Where the program's own stack is, from its start on. */
__attribute__((aligned(16))) uint8_t stack[STACK_BYTES];

/* What compiled code may ask a C library for. */

void *memset(void *to, int byte, size_t length) {
    uint8_t *bytes = to;
    for (size_t i = 0; i < length; i++) bytes[i] = (uint8_t)byte;
    return to;
}

void *memmove(void *to, const void *from, size_t length) {
    uint8_t *target = to;
    const uint8_t *source = from;
    if ((uintptr_t)to < (uintptr_t)from) {
        for (size_t i = 0; i < length; i++) target[i] = source[i];
    } else {
        for (size_t i = length; i > 0; i--) target[i - 1] = source[i - 1];
    }
    return to;
}

void *memcpy(void *to, const void *from, size_t length) {
    return memmove(to, from, length);
}

/* Output. */

static uint8_t output[OUTPUT_BYTES];
static size_t output_length;

static void flush(void) {
    for (size_t done = 0; done < output_length;) {
        long wrote = system_call(SYSTEM_WRITE, 1, (long)(output + done), (long)(output_length - done));
        if (wrote <= 0) system_call(SYSTEM_EXIT, 2, 0, 0);
        done += (size_t)wrote;
    }
    output_length = 0;
}

static void write_byte(uint8_t byte) {
    if (output_length == OUTPUT_BYTES) flush();
    output[output_length++] = byte;
}

static void write_text(const char *text) {
    while (*text) write_byte((uint8_t)*text++);
}

static void write_number(uint64_t number) {
    /* A division of 64 bits would need a library on a machine of 32: digits are counted off. */
    uint64_t units[MOST_DIGITS] = {1};
    int any = 0;
    for (int i = 1; i < MOST_DIGITS; i++) units[i] = units[i - 1] * 10;
    for (int i = MOST_DIGITS - 1; i >= 0; i--) {
        char digit = '0';
        for (; number >= units[i]; number -= units[i]) digit++;
        any |= digit > '0' || i == 0;
        if (any) write_byte((uint8_t)digit);
    }
}

static void write_hex(uint32_t word) {
    for (int at = 28; at >= 0; at -= 4) write_byte((uint8_t) "0123456789abcdef"[(word >> at) & 15]);
}

__attribute__((noreturn)) static void end(int status) {
    flush();
    for (;;) system_call(SYSTEM_EXIT, status, 0, 0);
}

__attribute__((noreturn)) static void refuse(const char *why) {
    write_text("runner: ");
    write_text(why);
    write_text("\n");
    end(1);
}

/* Input: words, and where the line ends. */

static uint8_t input[INPUT_BYTES];
static size_t input_at, input_length;
static char word[LONGEST_WORD];
static int line_ended, input_ended;

static int read_byte(void) {
    if (input_at == input_length) {
        long got = system_call(SYSTEM_READ, 0, (long)input, INPUT_BYTES);
        if (got < 0) refuse("the list cannot be read");
        if (got == 0) return -1;
        input_length = (size_t)got;
        input_at = 0;
    }
    return input[input_at++];
}

static const char *read_word(void) {
    size_t length = 0;
    for (;;) {
        int byte = read_byte();
        input_ended = byte < 0;
        line_ended = byte == '\n' || byte < 0;
        if (line_ended || byte == ' ') break;
        if (length == LONGEST_WORD - 1) refuse("a word is too long");
        word[length++] = (char)byte;
    }
    word[length] = 0;
    return word;
}

static int same(const char *a, const char *b) {
    while (*a && *a == *b) {
        a++;
        b++;
    }
    return *a == *b;
}

/* The number that text begins with; the rest of the text. */
static const char *number_of(const char *text, uint64_t *number) {
    if (*text < '0' || *text > '9') refuse("a number was expected");
    for (*number = 0; *text >= '0' && *text <= '9'; text++) *number = *number * 10 + (uint64_t)(*text - '0');
    return text;
}

static uint64_t read_number(void) {
    uint64_t number;
    if (*number_of(read_word(), &number)) refuse("a number was expected");
    return number;
}

/* Bytes of the arena, with the fence around them. */
static uint8_t *bytes_at(uint64_t at, uint64_t length) {
    if (at < FENCE || at > ARENA_BYTES || length > ARENA_BYTES - FENCE - at) refuse("outside the arena");
    return arena + at;
}

/* SHA-256. */

static const uint32_t ROUND[64] = {
    0x428a2f98, 0x71374491, 0xb5c0fbcf, 0xe9b5dba5, 0x3956c25b, 0x59f111f1, 0x923f82a4, 0xab1c5ed5, 0xd807aa98, 0x12835b01, 0x243185be,
    0x550c7dc3, 0x72be5d74, 0x80deb1fe, 0x9bdc06a7, 0xc19bf174, 0xe49b69c1, 0xefbe4786, 0x0fc19dc6, 0x240ca1cc, 0x2de92c6f, 0x4a7484aa,
    0x5cb0a9dc, 0x76f988da, 0x983e5152, 0xa831c66d, 0xb00327c8, 0xbf597fc7, 0xc6e00bf3, 0xd5a79147, 0x06ca6351, 0x14292967, 0x27b70a85,
    0x2e1b2138, 0x4d2c6dfc, 0x53380d13, 0x650a7354, 0x766a0abb, 0x81c2c92e, 0x92722c85, 0xa2bfe8a1, 0xa81a664b, 0xc24b8b70, 0xc76c51a3,
    0xd192e819, 0xd6990624, 0xf40e3585, 0x106aa070, 0x19a4c116, 0x1e376c08, 0x2748774c, 0x34b0bcb5, 0x391c0cb3, 0x4ed8aa4a, 0x5b9cca4f,
    0x682e6ff3, 0x748f82ee, 0x78a5636f, 0x84c87814, 0x8cc70208, 0x90befffa, 0xa4506ceb, 0xbef9a3f7, 0xc67178f2};

static uint32_t turned(uint32_t x, int by) {
    return x >> by | x << (32 - by);
}

static void hash_block(uint32_t state[8], const uint8_t block[64]) {
    uint32_t w[64], s[8];
    for (int i = 0; i < 16; i++)
        w[i] = (uint32_t)block[4 * i] << 24 | (uint32_t)block[4 * i + 1] << 16 | (uint32_t)block[4 * i + 2] << 8 | block[4 * i + 3];
    for (int i = 16; i < 64; i++) {
        uint32_t a = w[i - 15], b = w[i - 2];
        w[i] = w[i - 16] + (turned(a, 7) ^ turned(a, 18) ^ a >> 3) + w[i - 7] + (turned(b, 17) ^ turned(b, 19) ^ b >> 10);
    }
    for (int i = 0; i < 8; i++) s[i] = state[i];
    for (int i = 0; i < 64; i++) {
        uint32_t up = s[7] + (turned(s[4], 6) ^ turned(s[4], 11) ^ turned(s[4], 25)) + ((s[4] & s[5]) ^ (~s[4] & s[6])) + ROUND[i] + w[i];
        uint32_t down = (turned(s[0], 2) ^ turned(s[0], 13) ^ turned(s[0], 22)) + ((s[0] & s[1]) ^ (s[0] & s[2]) ^ (s[1] & s[2]));
        s[7] = s[6], s[6] = s[5], s[5] = s[4], s[4] = s[3] + up, s[3] = s[2], s[2] = s[1], s[1] = s[0], s[0] = up + down;
    }
    for (int i = 0; i < 8; i++) state[i] += s[i];
}

static void write_hash(const uint8_t *bytes, uint64_t length) {
    uint32_t state[8] = {0x6a09e667, 0xbb67ae85, 0x3c6ef372, 0xa54ff53a, 0x510e527f, 0x9b05688c, 0x1f83d9ab, 0x5be0cd19};
    uint8_t last[128] = {0};
    uint64_t done = 0;
    for (; length - done >= 64; done += 64) hash_block(state, bytes + done);
    unsigned rest = (unsigned)(length - done), end_at = rest < 56 ? 64 : 128;
    for (unsigned i = 0; i < rest; i++) last[i] = bytes[done + i];
    last[rest] = 0x80;
    for (unsigned i = 0; i < 8; i++) last[end_at - 1 - i] = (uint8_t)(length * 8 >> 8 * i);
    hash_block(state, last);
    if (end_at == 128) hash_block(state, last + 64);
    for (int i = 0; i < 8; i++) write_hex(state[i]);
}

/* The calls. */

typedef struct {
    char form; /* ':', '*' or '=' */
    uint8_t *at;
    uint64_t number;
} lent;

#define BYTES(i) l[i].at, l[i].number
#define NUMBERS(i) (uint64_t *)(void *)l[i].at, l[i].number
#define NUMBER(i) l[i].number
#define CALL(name, ...)                                                                                                                        \
    static uint64_t call_##name(const lent *l) {                                                                                               \
        return name(__VA_ARGS__);                                                                                                              \
    }
#include "exported.h"
#undef CALL

static const struct {
    const char *name;
    uint64_t (*call)(const lent *);
} CALLS[] = {
#define CALL(name, ...) {#name, call_##name},
#include "exported.h"
#undef CALL
};

static uint64_t step, wrong_answer, wrong_byte;
static enum { BUFFERS, ANSWERS, STACK, TIME } written;
static const char *const WRITTEN[] = {"buffers", "answers", "stack", "time"};
/* The words of the stack that are painted, from its lowest place on: what one call has used is painted again for the next. */
static size_t painted;

static uint64_t nanoseconds(void) {
    long now[2];
    if (system_call(SYSTEM_CLOCK, 1, (long)now, 0) != 0) refuse("no clock");
    return (uint64_t)now[0] * 1000000000u + (uint64_t)now[1];
}

/* Makes the call; gives the bytes of stack that it took below this function's own, or the nanoseconds, if they are written. */
__attribute__((noinline)) static uint64_t measured(uint64_t (*call)(const lent *), const lent *l, uint64_t *answer) {
    if (written == TIME) {
        uint64_t before = nanoseconds();
        *answer = call(l);
        return nanoseconds() - before;
    }
    if (written != STACK) {
        *answer = call(l);
        return 0;
    }
    volatile uintptr_t *words = (volatile uintptr_t *)(void *)stack;
    size_t top = (size_t)(stack_pointer() - stack) / sizeof *words;
    while (painted < top) words[painted++] = PAINT;
    *answer = call(l);
    for (painted = 0; painted < top && words[painted] == PAINT;) painted++;
    if (painted == 0) refuse("the stack was too small");
    return (top - painted) * sizeof *words;
}

static void make_call(void) {
    lent l[MOST_LENT];
    size_t which = 0, count = 0, calls = sizeof CALLS / sizeof *CALLS;
    uint64_t answer, figure;
    read_word();
    while (which < calls && !same(CALLS[which].name, word)) which++;
    if (which == calls) refuse("no call has this name");
    while (!line_ended) {
        const char *text = read_word();
        if (count == MOST_LENT) refuse("too much is lent");
        lent *now = l + count++;
        if (*text == '=') {
            now->form = '=';
            if (*number_of(text + 1, &now->number)) refuse("a number was expected");
            continue;
        }
        uint64_t at;
        text = number_of(text, &at);
        now->form = *text;
        if (now->form != ':' && now->form != '*') refuse("a buffer was expected");
        if (*number_of(text + 1, &now->number)) refuse("a number was expected");
        now->at = bytes_at(at, now->form == '*' ? now->number * 8 : now->number);
        if (now->form == '*' && at % 8 != 0) refuse("numbers stand at multiples of 8");
    }
    step++;
    figure = measured(CALLS[which].call, l, &answer);
    if (step == wrong_answer) answer++;
    if (step == wrong_byte) l[0].at[l[0].number - 1] ^= 1;
    write_number(step);
    write_text(" ");
    write_text(CALLS[which].name);
    write_text(" ");
    write_number(answer);
    if (written == STACK || written == TIME) {
        write_text(" ");
        write_number(figure);
    } else if (written == BUFFERS) {
        for (size_t i = 0; i < count; i++) {
            if (l[i].form == ':') {
                write_text(" ");
                write_hash(l[i].at - FENCE, l[i].number + 2 * FENCE);
            } else if (l[i].form == '*') {
                const uint64_t *numbers = (const uint64_t *)(const void *)l[i].at - 1;
                for (uint64_t k = 0; k < l[i].number + 2; k++) {
                    write_text(" ");
                    write_number(numbers[k]);
                }
            }
        }
    }
    write_text("\n");
    if (step == wrong_byte) l[0].at[l[0].number - 1] ^= 1;
}

/* The list. */

static void read_bytes(void) {
    uint64_t at = read_number(), length = 0;
    const char *hex = read_word();
    while (hex[length]) length++;
    uint8_t *to = bytes_at(at, length / 2);
    for (uint64_t i = 0; i + 1 < length; i += 2) {
        uint8_t byte = 0;
        for (uint64_t k = i; k < i + 2; k++) byte = (uint8_t)(byte << 4 | (hex[k] <= '9' ? hex[k] - '0' : hex[k] - 'a' + 10));
        to[i / 2] = byte;
    }
}

static void carry_out(const char *command) {
    if (same(command, "call")) {
        make_call();
    } else if (same(command, "bytes")) {
        read_bytes();
    } else if (same(command, "random")) {
        uint64_t at = read_number(), length = read_number();
        uint8_t *to = bytes_at(at, length);
        uint32_t x = (uint32_t)read_number();
        for (uint64_t i = 0; i < length; i++) {
            x ^= x << 13;
            x ^= x >> 17;
            x ^= x << 5;
            to[i] = (uint8_t)(x >> 24);
        }
    } else if (same(command, "fill")) {
        uint64_t at = read_number(), length = read_number();
        memset(bytes_at(at, length), (int)read_number(), (size_t)length);
    } else if (same(command, "copy")) {
        uint64_t from = read_number(), to = read_number(), length = read_number();
        memmove(bytes_at(to, length), bytes_at(from, length), (size_t)length);
    } else if (same(command, "flip")) {
        uint8_t *at = bytes_at(read_number(), 1);
        *at ^= (uint8_t)read_number();
    } else if (same(command, "hash")) {
        uint64_t at = read_number(), length = read_number();
        write_text("hash ");
        write_hash(bytes_at(at, length), length);
        write_text("\n");
    } else if (same(command, "scene")) {
        write_text("scene");
        while (!line_ended) {
            write_text(" ");
            write_text(read_word());
        }
        write_text("\n");
    } else if (same(command, "write")) {
        const char *what = read_word();
        for (written = BUFFERS; !same(what, WRITTEN[written]); written++)
            if (written == TIME) refuse("nothing to write is called so");
        painted = 0;
    } else if (same(command, "wrong")) {
        uint64_t *which = same(read_word(), "answer") ? &wrong_answer : &wrong_byte;
        *which = read_number();
    } else {
        refuse("no such command");
    }
    if (!line_ended) refuse("a line is too long");
}

void run(void);

void run(void) {
    for (;;) {
        const char *command = read_word();
        if (input_ended && !*command) end(0);
        carry_out(command);
    }
}
