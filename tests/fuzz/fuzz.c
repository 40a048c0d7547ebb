/* The engine's one call under libFuzzer. An input is a few texts: program, words and files, from which a request is made; one that
   begins with the byte 0 is a request as it stands. What must hold: the call returns, the answer is laid out as flashfill.h says, it is
   the same the second time, and its status is one of the engine's. */
#include "../../embed/c/flashfill.h"

#include <stdlib.h>
#include <string.h>

/* The separator of the texts of an input: a line of its own. */
static const char END[] = "\n--\n";

static size_t number_at(const uint8_t *at) {
    uint64_t number = 0;
    for (int i = 0; i < 8; i++) number |= (uint64_t)at[i] << (8 * i);
    return (size_t)number;
}

static uint8_t *put_number(uint8_t *at, size_t number) {
    for (int i = 0; i < 8; i++) *at++ = (uint8_t)((uint64_t)number >> (8 * i));
    return at;
}

static uint8_t *put(uint8_t *at, const uint8_t *text, size_t size) {
    at = put_number(at, size);
    if (size) memcpy(at, text, size);
    return at + size;
}

/* Where the text that begins here ends. */
static const uint8_t *end_of(const uint8_t *at, const uint8_t *end) {
    const uint8_t *found = at < end ? memmem(at, (size_t)(end - at), END, 4) : NULL;
    return found ? found : end;
}

/* A request of an input: the program, a text with a word in each line, and then names and files in turn. */
static size_t request_of(const uint8_t *data, size_t size, uint8_t *request) {
    const uint8_t *end = data + size, *to = end_of(data, end), *word;
    uint8_t *at = put(request, data, (size_t)(to - data)), *count;
    size_t words = 0, files = 0;
    data = to + 4 < end ? to + 4 : end;
    to = end_of(data, end);
    count = at;
    at += 8;
    while (data < to) {
        word = memchr(data, '\n', (size_t)(to - data));
        if (!word) word = to;
        at = put(at, data, (size_t)(word - data));
        words++;
        data = word < to ? word + 1 : to;
    }
    put_number(count, words);
    data = to + 4 < end ? to + 4 : end;
    count = at;
    at += 8;
    while (data < end) {
        for (int part = 0; part < 2; part++) {
            to = end_of(data, end);
            at = put(at, data, (size_t)(to - data));
            data = to + 4 < end ? to + 4 : end;
        }
        files++;
    }
    put_number(count, files);
    return (size_t)(at - request);
}

static void expect(int holds) {
    if (!holds) abort();
}

/* The answer of a request, which the caller frees, and its size. */
static uint8_t *answer_of(const uint8_t *request, size_t size, size_t *made) {
    size_t room_size = 4096;
    uint8_t *room = malloc(room_size);
    while (room && (*made = fill_engine(request, size, room, room_size)) > room_size) {
        free(room);
        room = malloc(room_size = *made);
    }
    expect(room != NULL);
    return room;
}

int LLVMFuzzerTestOneInput(const uint8_t *data, size_t size) {
    size_t request_size, made, again, at = 1;
    uint8_t *request, *first, *second;
    if (size == 0) return 0;
    /* at most eight bytes more for each byte, and the two counts */
    request = malloc(9 * size + 64);
    if (!request) return 0;
    if (data[0] == 0) {
        memcpy(request, data + 1, size - 1);
        request_size = size - 1;
    } else {
        request_size = request_of(data, size, request);
    }
    first = answer_of(request, request_size, &made);
    second = answer_of(request, request_size, &again);
    expect(made == again && memcmp(first, second, made) == 0);
    expect(made >= 25 && (first[0] <= 3 || (first[0] >= 5 && first[0] <= 7)));
    for (int part = 0; part < 3; part++) {
        expect(made - at >= 8 && number_at(first + at) <= made - at - 8);
        at += 8 + number_at(first + at);
    }
    expect(at == made);
    /* with 2, 3 and 5 nothing is written */
    if (first[0] == 2 || first[0] == 3 || first[0] == 5) expect(number_at(first + 1) == 0 || (data[0] != 0 && memmem(data, size, "--rule", 6)));
    free(first);
    free(second);
    free(request);
    return 0;
}
