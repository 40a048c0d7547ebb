/* Requests and answers of the engine, for C. */
#include "flashfill.h"

#include <stdlib.h>
#include <string.h>

static uint8_t *put_number(uint8_t *at, size_t number) {
    for (int i = 0; i < 8; i++)
        *at++ = (uint8_t)((uint64_t)number >> (8 * i));
    return at;
}

static uint8_t *put(uint8_t *at, const void *text, size_t size) {
    at = put_number(at, size);
    if (size > 0)
        memcpy(at, text, size);
    return at + size;
}

static size_t number_at(const uint8_t *at) {
    uint64_t number = 0;
    for (int i = 0; i < 8; i++)
        number |= (uint64_t)at[i] << (8 * i);
    return (size_t)number;
}

/* Reads a text of an answer, and returns where the next one begins. */
static const uint8_t *piece_at(const uint8_t *at, const char **text, size_t *size) {
    *text = (const char *)at + 8;
    *size = number_at(at);
    return at + 8 + *size;
}

/* The bytes of a request, which the caller frees; null for want of memory. */
static uint8_t *request_of(const char *program, const char *const *words, size_t word_count,
                           const struct flashfill_file *files, size_t file_count, size_t *size) {
    *size = 8 + strlen(program) + 8 + 8;
    for (size_t i = 0; i < word_count; i++)
        *size += 8 + strlen(words[i]);
    for (size_t i = 0; i < file_count; i++)
        *size += 8 + strlen(files[i].name) + 8 + files[i].size;
    uint8_t *request = malloc(*size), *at = request;
    if (!request)
        return NULL;
    at = put(at, program, strlen(program));
    at = put_number(at, word_count);
    for (size_t i = 0; i < word_count; i++)
        at = put(at, words[i], strlen(words[i]));
    at = put_number(at, file_count);
    for (size_t i = 0; i < file_count; i++) {
        at = put(at, files[i].name, strlen(files[i].name));
        at = put(at, files[i].bytes, files[i].size);
    }
    return request;
}

/* The bytes of an answer, which the caller frees; null for want of memory. */
static uint8_t *answer_of(const uint8_t *request, size_t request_size) {
    size_t room_size = 2 * request_size + 65536;
    uint8_t *room = malloc(room_size);
    while (room) {
        size_t size = fill_engine(request, request_size, room, room_size);
        if (size <= room_size)
            return room;
        free(room);
        room = malloc(room_size = size);
    }
    return NULL;
}

int flashfill_run(const char *program, const char *const *words, size_t word_count,
                  const struct flashfill_file *files, size_t file_count, struct flashfill_answer *answer) {
    size_t size;
    uint8_t *request = request_of(program, words, word_count, files, file_count, &size);
    uint8_t *bytes = request ? answer_of(request, size) : NULL;
    free(request);
    *answer = (struct flashfill_answer){.status = 6, .out = "", .err = "", .saved = "", .block = bytes};
    if (bytes) {
        answer->status = bytes[0];
        const uint8_t *rest = piece_at(bytes + 1, &answer->out, &answer->out_size);
        rest = piece_at(rest, &answer->err, &answer->err_size);
        piece_at(rest, &answer->saved, &answer->saved_size);
    }
    return answer->status;
}

void flashfill_free(struct flashfill_answer *answer) {
    free(answer->block);
    *answer = (struct flashfill_answer){.out = "", .err = "", .saved = ""};
}
