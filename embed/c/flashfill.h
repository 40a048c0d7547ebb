/* flashfill and fillcsv as a call: words and files in memory in, a report, a filled sheet or a rule out. */
#ifndef FLASHFILL_H
#define FLASHFILL_H

#include <stddef.h>
#include <stdint.h>

/* A file in memory, by the name that words and session files call it; `-` is standard input. */
struct flashfill_file {
    const char *name;
    const void *bytes;
    size_t size;
};

/*
 * What a program answers: its status, what it wrote to its output, its lines of errors, and the file that it saved, which is
 * empty where it saved none. No text ends with a 0.
 *
 * 0 all was written; 1 all was written, and something in it was refused; 2 the words are wrong; 3 a file is not there;
 * 5 a file is refused; 6 want of memory, and then nothing else is told. 4, a failed write, does not occur.
 */
struct flashfill_answer {
    int status;
    const char *out;
    size_t out_size;
    const char *err;
    size_t err_size;
    const char *saved;
    size_t saved_size;
    void *block; /* what `flashfill_free` gives back */
};

/*
 * Runs a program, "flashfill" or "fillcsv", with the words after its name, over the files that are handed in; of two with
 * one name the later one is seen. Words and names are UTF-8. Fills in the answer, and returns its status; 7 where the
 * program has another name, or a word or a file's name is not UTF-8.
 */
int flashfill_run(const char *program, const char *const *words, size_t word_count,
                  const struct flashfill_file *files, size_t file_count, struct flashfill_answer *answer);

/* Gives back the memory of an answer. */
void flashfill_free(struct flashfill_answer *answer);

/*
 * The call below both: answers the bytes of a request.
 *
 * A request is the program's name, the number of words, the words, the number of files, and the name and the bytes of
 * each. A number has eight bytes, the lowest first; a text is the number of its bytes and then these. An answer is the
 * status, one byte, and the texts of the output, of the errors and of the file that was saved. What is no request has
 * status 7 and three empty texts.
 *
 * Returns the number of the answer's bytes, and leaves them at the front of the room where they fit in. Else the room
 * stays as it was: call again with one of that size. No pointer is null, and the two do not overlap.
 */
size_t fill_engine(const uint8_t *request, size_t request_size, uint8_t *room, size_t room_size);

#endif
