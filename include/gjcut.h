/* The library of gjcut: one call, over memory. docs/library.md says how to build and link it, and
 * what is proved of it. */
#ifndef GJCUT_H
#define GJCUT_H

#include <stddef.h>
#include <stdint.h>
#include <string.h>

#if defined(__cplusplus) || (defined(__STDC_VERSION__) && __STDC_VERSION__ >= 199901L)
#define GJCUT_INLINE static inline
#elif defined(__GNUC__)
#define GJCUT_INLINE static __inline__
#else
#define GJCUT_INLINE static
#endif

#ifdef __cplusplus
extern "C" {
#endif

/* How a call ended: the status with which the program ends. Take cuts and proofs from GJCUT_DONE
 * alone. */
enum gjcut_status {
    GJCUT_DONE = 0,            /* the answer was written */
    GJCUT_REJECTED = 1,        /* `check`: a rule of the checker fails, or a step does not follow;
                                * `derive`: a claim does not follow, or a step names one that shows
                                * nothing */
    GJCUT_WORDS = 2,           /* the words name no request */
    GJCUT_INPUT = 3,           /* the input is outside its form or a limit */
    GJCUT_NO_ROOM = 5,         /* the output has no room for the answer, which can be any other,
                                * also a refusal: its front was written, and `*written` is the
                                * length of all of it. 200 bytes have room for every refusal, as
                                * reckoned */
    GJCUT_NO_MEMORY = 6,       /* there was no memory: nothing was written, and `*written` is 0 */
    GJCUT_WIDE = 7,            /* `extreme`, `group`: a number passed its bound; `extreme --jumps`:
                                * that, or the proof would be longer than 12,000,000 bytes */
    GJCUT_NOT_CONTINUOUS = 8,  /* the function jumps; of `extreme`, `mixed`, `problem`, `derive` and
                                * `check`: and is minimal. With the word `--jumps` `extreme` and
                                * `faces` never end so */
    GJCUT_NO_FUNCTION = 9,     /* `cut`, `mixed`, `problem`, `derive`, `check`: the function is not
                                * minimal */
    GJCUT_NOT_SUBADDITIVE = 10, /* `fill`: the function is not subadditive */
    GJCUT_ORDER_LIMIT = 11,    /* `times`: the order would pass 1,000; `group`: it is above 120 */
    GJCUT_BAD_ORDER = 12       /* `restrict`: the function has no restriction of that order */
};

/* Answers a request over an input, as the program does. `words` are the words of its command line,
 * with one blank between two, as "times 3 1". `input` is what it reads, and the answer is what it
 * writes. The answer is put at the front of `output`, and its length into `*written`, which every
 * call sets. What stands after it in `output` stays as it was.
 *
 * If the answer is longer than `output_length`, the status is GJCUT_NO_ROOM, the output is full of
 * its front, and `*written` is the length of the whole answer, so more than `output_length`. Then
 * call again with the same words and input and an output of that length: it has room. (That is
 * proved but for the cuts of `problem`, of which it is tested.) The second call does the whole work
 * again: `gjcut_room` says which room to try first. Nothing is kept from one call to
 * the next, and what a call takes of the heap it gives back before it returns.
 *
 * What a caller owes, since nothing tests it:
 * - `words`, `input` and `output` point to as many bytes as their lengths say, less than 2^63, and
 *   `written` to a number. No pointer is NULL, not even if a length is 0.
 * - `output` and `*written` overlap nothing else that is handed over, and during the call nobody
 *   else reads or writes them, nor writes `words` or `input`. Several threads may call at once if
 *   each has an output and a number of its own. That such calls do not disturb each other is
 *   tested, with four threads, and not proved.
 * - malloc, realloc and free of the program belong together, and malloc and realloc align a block
 *   to each power of two up to 16 that divides its size, as those of the C library do.
 * - There is enough stack, see GJCUT_STACK.
 * - The call is not made in a signal handler. Nor is it made in the child of a fork in a process
 *   with several threads, before exec: malloc may be locked there. The child of a process with one
 *   thread may call.
 */
uint8_t gjcut_answer(const uint8_t *words, size_t words_length, const uint8_t *input,
                     size_t input_length, uint8_t *output, size_t output_length, size_t *written);

/* A call needs at most so many bytes of stack, by measurement: no example, none of the largest
 * inputs and no JSON, however deep it nests, was seen to use more than 140,000. Give a thread that
 * calls as much, and what your own functions need: 128 KB, the default of musl, is too little. With
 * less, the system ends the process by a signal at the guard page below the stack. A stack of your
 * own making that has no guard page is run over, and memory below it is overwritten. */
#define GJCUT_STACK 262144

/* Whether a word stands among the words. */
GJCUT_INLINE int gjcut_has_word(const uint8_t *words, size_t words_length, const char *word) {
    size_t length = strlen(word), i;
    for (i = 0; i + length <= words_length; i++) {
        int begins = i == 0 || words[i - 1] == ' ';
        int ends = i + length == words_length || words[i + length] == ' ';
        if (begins && ends && memcmp(words + i, word, length) == 0) return 1;
    }
    return 0;
}

/* How many bytes of output to try for the answer to the words over an input of this length. It is
 * room for every answer, but for `problem` and `derive`: there for one cut, or one open claim, of
 * every program, and for several of most. That a proof of `extreme` has at most 12,000,000 bytes is proved; the other figures are
 * reckoned from the forms and limits of the texts, and tested. Most answers are far shorter: where
 * time counts, try first with 131,072 bytes, though a second call costs the work again. */
GJCUT_INLINE size_t gjcut_room(const uint8_t *words, size_t words_length, size_t input_length) {
    /* A function text, in JSON too: 1,000 points of 93 bytes. */
    const size_t function = 100000;
    /* A longer input is refused. */
    if (input_length > 16777216) return function;
    if (gjcut_has_word(words, words_length, "extreme"))
        /* In JSON two bytes more for each line. */
        return gjcut_has_word(words, words_length, "--json") ? 15000000 : 12000000;
    /* Two triangles of 14 bytes in each of 1,000,000 squares; of a function that jumps it can be
     * three edges of at most 19 bytes, without triangles. */
    if (gjcut_has_word(words, words_length, "faces"))
        return gjcut_has_word(words, words_length, "--jumps") ? 57100000 : 28100000;
    if (gjcut_has_word(words, words_length, "cut") ||
        gjcut_has_word(words, words_length, "mixed")) {
        /* A row takes 4 bytes of the input or more, and an entry 2. A name has at most 255: with
         * names of at most n a row takes n + 49 bytes of the answer, and an entry n + 97. */
        size_t rows = input_length / 4 + 1, entries = input_length / 2;
        if (rows > 10000) rows = 10000;
        if (entries > 100000) entries = 100000;
        return function + 304 * rows + 352 * entries;
    }
    /* The line of a column takes 18 bytes of the input or more, and its name; in a cut 87, and its
     * name. A cut has a line for each column, and there is one for each line `sum`. */
    if (gjcut_has_word(words, words_length, "problem")) return function + 5 * input_length;
    /* And the text in canonical spelling: a decimal has there at most twice the digits. */
    if (gjcut_has_word(words, words_length, "derive")) return function + 8 * input_length;
    if (gjcut_has_word(words, words_length, "fill")) return 400000; /* 2,000 points of 170 bytes */
    return function;
}

#ifdef __cplusplus
}
#endif

#endif
