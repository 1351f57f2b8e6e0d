/* Calls the library on examples and compares what it says, byte for byte. docs/library.md has a shorter program.
 *
 * library FOLDER..            each example, with a room that is large, with one that is a byte too short and then with as much as that call
 *                             asks for, each problem also with each smaller room, and calls that no folder has
 * library -threads FOLDER..   the examples from four threads at once
 * library -stack FOLDER..     how much stack the calls on the examples, on nested JSON and on large inputs use at most, against GJCUT_STACK
 * library -refuse FOLDER..    the short examples, with each allocation refused in turn
 * library -heap FOLDER..      how many bytes the calls on the examples and on large inputs hold at most, against the bound
 *                             of docs/library.md, and that all are given back
 * library -time N FOLDER      N calls on one example, with the time that a call takes and by how much the memory grew
 *
 * An example is a folder with the files words (one a line), input, output and status. The
 * program is linked with --wrap for malloc, realloc and free, so that it sees what a call asks for.
 */
#include <malloc.h>
#include <pthread.h>
#include <stdio.h>
#include <stdlib.h>
#include <string.h>
#include <time.h>

#include "gjcut.h"

enum { THREADS = 4, BEHIND = 64, MARK = 0xa5, STACK = 1 << 20 };

struct text {
    uint8_t *bytes;
    size_t length;
};

/* What the blocks of a call came to, while one is watched: of one thread only. */
static struct {
    int watched;
    long asked, refused;
    size_t held, most;
} heap = {.refused = -1};

void *__real_malloc(size_t);
void *__real_realloc(void *, size_t);
void __real_free(void *);
void *__wrap_malloc(size_t);
void *__wrap_realloc(void *, size_t);
void __wrap_free(void *);

static int is_refused(void) { return heap.watched && heap.asked++ == heap.refused; }

/* While a block moves, both are held. */
static void hold(void *block, size_t before) {
    if (!heap.watched || !block) return;
    heap.held += malloc_usable_size(block);
    if (heap.held > heap.most) heap.most = heap.held;
    heap.held -= before;
}

void *__wrap_malloc(size_t size) {
    void *block = is_refused() ? NULL : __real_malloc(size);
    hold(block, 0);
    return block;
}

void *__wrap_realloc(void *old, size_t size) {
    size_t before = old ? malloc_usable_size(old) : 0;
    void *block = is_refused() ? NULL : __real_realloc(old, size);
    hold(block, before);
    return block;
}

void __wrap_free(void *block) {
    if (heap.watched && block) heap.held -= malloc_usable_size(block);
    __real_free(block);
}

struct example {
    const char *name;
    struct text words, input, output;
    int status;
};

static void *memory(size_t size) {
    void *block = malloc(size ? size : 1);
    if (!block) abort();
    return block;
}

static FILE *open_file(const char *folder, const char *name) {
    char path[4096];
    snprintf(path, sizeof path, "%s/%s", folder, name);
    return fopen(path, "rb");
}

static struct text read_file(const char *folder, const char *name) {
    FILE *file = open_file(folder, name);
    if (!file) {
        fprintf(stderr, "library: %s has no %s\n", folder, name);
        exit(2);
    }
    fseek(file, 0, SEEK_END);
    struct text text = {.length = (size_t)ftell(file)};
    rewind(file);
    text.bytes = memory(text.length);
    if (fread(text.bytes, 1, text.length, file) != text.length) exit(2);
    fclose(file);
    return text;
}

/* The words stand one a line, and a call takes them with one blank between two. */
static struct text read_words(const char *folder) {
    struct text words = read_file(folder, "words");
    if (words.length) words.length--;
    for (size_t i = 0; i < words.length; i++)
        if (words.bytes[i] == '\n') words.bytes[i] = ' ';
    return words;
}

static struct example read_example(const char *folder) {
    struct example example = {folder, read_words(folder), read_file(folder, "input"), read_file(folder, "output"), 0};
    struct text status = read_file(folder, "status");
    for (size_t i = 0; i < status.length && status.bytes[i] != '\n'; i++) example.status = 10 * example.status + status.bytes[i] - '0';
    free(status.bytes);
    return example;
}

static void free_example(struct example example) {
    free(example.words.bytes);
    free(example.input.bytes);
    free(example.output.bytes);
}

static int call(struct text words, struct text input, struct text output, size_t *written) {
    return gjcut_answer(words.bytes, words.length, input.bytes, input.length, output.bytes, output.length, written);
}

static int is_for_problems(struct text words) { return gjcut_has_word(words.bytes, words.length, "problem"); }

/* Whether a call with this room ends with the status, or for want of room with that, tells the length of the whole
 * answer, writes as much of it as there is room for, and leaves the bytes behind that as they were. */
static int answers(const struct example *example, size_t room) {
    size_t length = example->output.length, front = room < length ? room : length, written = (size_t)-1;
    uint8_t *output = memory(room + BEHIND);
    memset(output, MARK, room + BEHIND);
    int ended = call(example->words, example->input, (struct text){output, room}, &written);
    int good = ended == (room < length ? GJCUT_NO_ROOM : example->status) && written == length;
    good = good && !memcmp(output, example->output.bytes, front);
    for (size_t i = front; good && i < room + BEHIND; i++) good = output[i] == MARK;
    if (!good) printf("library: %s with %zu bytes of room ended with %d and told %zu bytes\n", example->name, room, ended, written);
    free(output);
    return good;
}

/* Whether a call without room asks for the room that a second call then fills. */
static int answers_at_second(const struct example *example) {
    uint8_t none;
    size_t asked = 0;
    int ended = call(example->words, example->input, (struct text){&none, 0}, &asked);
    return ended == (asked ? GJCUT_NO_ROOM : example->status) && asked == example->output.length && answers(example, asked);
}

static int is_answered(const struct example *example) {
    size_t length = example->output.length, reckoned = gjcut_room(example->words.bytes, example->words.length, example->input.length);
    size_t least = is_for_problems(example->words) || !length ? 0 : length - 1;
    int good = answers(example, length + 1000) && answers_at_second(example);
    for (size_t room = least; good && room < length; room++) good = answers(example, room);
    if (good && length > reckoned) {
        printf("library: %s has an answer of %zu bytes, and the header says %zu\n", example->name, length, reckoned);
        return 0;
    }
    return good;
}

static struct text text_of(const char *bytes) { return (struct text){(uint8_t *)bytes, strlen(bytes)}; }

/* Calls that no example has: the whole words, the length of an input of bytes that are 0, the status and the answer. */
static int others(void) {
    static const struct {
        const char *words;
        size_t zeros;
        int status;
        const char *output;
    } calls[] = {
        {"", 0, GJCUT_WORDS, "words refused\n"},
        {"show ", 0, GJCUT_WORDS, "words refused\n"},
        {"times  2 0", 0, GJCUT_WORDS, "words refused\n"},
        {"times\t2 0", 0, GJCUT_WORDS, "words refused\n"},
        {"\xff", 0, GJCUT_WORDS, "words refused\n"},
        {"show\xc3", 0, GJCUT_WORDS, "words refused\n"},
        {"show", 0, GJCUT_INPUT, "refused line 1 form\n"},
        {"minimal", 16777216, GJCUT_INPUT, "refused line 1 form\n"},
        {"minimal", 16777217, GJCUT_INPUT, "refused long\n"},
        {"problem", 0, GJCUT_INPUT, "refused line 1 form\n"},
        {"problem", 16777216, GJCUT_INPUT, "refused line 1 form\n"},
        {"problem", 16777217, GJCUT_INPUT, "refused long\n"},
    };
    int good = 1;
    for (size_t i = 0; i < sizeof calls / sizeof *calls; i++) {
        struct text zeros = {memory(calls[i].zeros), calls[i].zeros};
        memset(zeros.bytes, 0, zeros.length);
        struct example example = {calls[i].words, text_of(calls[i].words), zeros, text_of(calls[i].output), calls[i].status};
        good = is_answered(&example) && good;
        free(zeros.bytes);
    }
    return good;
}

struct work {
    const struct example *examples;
    int count, good;
};

static void *work(void *given) {
    struct work *work = given;
    for (int i = 0; i < work->count; i++) work->good = is_answered(&work->examples[i]) && work->good;
    return NULL;
}

static int from_threads(const struct example *examples, int count) {
    pthread_t threads[THREADS];
    struct work works[THREADS];
    int good = 1;
    for (int i = 0; i < THREADS; i++) {
        works[i] = (struct work){examples, count, 1};
        if (pthread_create(&threads[i], NULL, work, &works[i])) abort();
    }
    for (int i = 0; i < THREADS; i++) {
        pthread_join(threads[i], NULL);
        good = good && works[i].good;
    }
    return good;
}

/* A call in a thread whose stack was filled with marks before, so that it shows how far the call has gone. */
struct stacked {
    struct text words, input, output;
};

static void *call_stacked(void *given) {
    struct stacked *stacked = given;
    size_t written;
    if (stacked) call(stacked->words, stacked->input, stacked->output, &written);
    return NULL;
}

static size_t stack_of(struct stacked *stacked) {
    uint8_t *stack = aligned_alloc(4096, STACK);
    if (!stack) abort();
    memset(stack, MARK, STACK);
    pthread_attr_t attributes;
    pthread_t thread;
    pthread_attr_init(&attributes);
    if (pthread_attr_setstack(&attributes, stack, STACK) || pthread_create(&thread, &attributes, call_stacked, stacked)) abort();
    pthread_join(thread, NULL);
    pthread_attr_destroy(&attributes);
    size_t untouched = 0;
    while (untouched < STACK && stack[untouched] == MARK) untouched++;
    free(stack);
    return STACK - untouched;
}

static struct text repeated(const char *front, const char *line, int times, const char *back) {
    struct text text = {memory(strlen(front) + strlen(line) * (size_t)times + strlen(back)), strlen(front)};
    memcpy(text.bytes, front, text.length);
    for (int i = 0; i < times; i++, text.length += strlen(line)) memcpy(text.bytes + text.length, line, strlen(line));
    memcpy(text.bytes + text.length, back, strlen(back));
    text.length += strlen(back);
    return text;
}

/* A dense problem, of whole and continuous columns in turn, with names that begin so and are filled up to a width, and
 * with multipliers over these parts. */
static struct text problem_of(const char *name, int constraints, int columns, int width, int sums, int parts) {
    size_t lines = (size_t)(constraints + 1) * (size_t)columns;
    struct text text = {memory(lines * (strlen(name) + (size_t)width + 40) + (size_t)(constraints * 40 + sums * (constraints * 12 + 8) + 64)), 0};
    char *at = (char *)text.bytes;
    at += sprintf(at, "gj-problem 1\nrule gmic\n");
    for (int j = 0; j < columns; j++) at += sprintf(at, "column %s%0*d %s 0 -\n", name, width, j, j % 2 ? "continuous" : "whole");
    for (int i = 0; i < constraints; i++) {
        at += sprintf(at, "constraint c <= %d\n", 1000 + i);
        for (int j = 0; j < columns; j++) at += sprintf(at, "entry %s%0*d %d\n", name, width, j, (7 * i + 11 * j) % 1000 - 300);
    }
    for (int i = 0; i < sums; i++) {
        at += sprintf(at, "sum");
        for (int j = 0; j < constraints; j++) {
            at += sprintf(at, " %d", (i + j) % 9);
            if (parts != 1) at += sprintf(at, "/%d", parts);
        }
        at += sprintf(at, "\n");
    }
    at += sprintf(at, "end\n");
    text.length = (size_t)(at - (char *)text.bytes);
    return text;
}

static struct text problem(int constraints, int columns, int width, int sums, int parts) {
    return problem_of("x", constraints, columns, width, sums, parts);
}

/* A derivation: a constraint >= with an entry for each column, and steps that each add up that and the step before, and
 * claim it, or leave the claim open. */
static struct text derivation(int columns, int steps, int claims) {
    size_t lines = (size_t)columns * (size_t)(2 + (claims ? steps : 0));
    struct text text = {memory(lines * 40 + (size_t)steps * 80 + 128), 0};
    char *at = (char *)text.bytes;
    at += sprintf(at, "gj-derivation 1\n");
    for (int j = 0; j < columns; j++) at += sprintf(at, "column x%d %s 0 -\n", j, j % 2 ? "continuous" : "whole");
    at += sprintf(at, "constraint c >= 0\n");
    for (int j = 0; j < columns; j++) at += sprintf(at, "entry x%d %d/7\n", j, j % 9 + 1);
    for (int i = 0; i < steps; i++) {
        at += sprintf(at, "step s%d linear\nby c 1\n", i);
        if (i) at += sprintf(at, "by s%d 1/1000000\n", i - 1);
        if (claims) at += sprintf(at, "claim 0\n");
        for (int j = 0; claims && j < columns; j++) at += sprintf(at, "term x%d 5\n", j);
    }
    at += sprintf(at, "end\n");
    text.length = (size_t)(at - (char *)text.bytes);
    return text;
}

/* A function of order q that jumps: x/f from 0 to f = 1/q, and x/(1 + f) from there to 1. It is extreme. */
static struct text jumping(int q) {
    struct text text = {memory(200), 0};
    text.length = (size_t)sprintf((char *)text.bytes, "gj-function 2\nf 1/%d\npoint 0 %d/%d 0 0\npoint 1/%d 1 1 1/%d\nend\n", q, q, q + 1, q, q + 1);
    return text;
}

/* The answer to words and an input, which is given back. */
static struct text answer_to(const char *words, struct text input) {
    struct text given = text_of(words), none = {memory(1), 0}, whole;
    call(given, input, none, &whole.length);
    whole.bytes = memory(whole.length);
    if (call(given, input, whole, &whole.length) != GJCUT_DONE) abort();
    free(input.bytes);
    free(none.bytes);
    return whole;
}

/* Many cuts of columns whose names begin as the line sum: the room that the header says is no multiple of them, and a
 * second call has as much as the first asked for. */
static int many_cuts(void) {
    struct text words = text_of("problem"), input = problem_of("sum", 2, 300, 1, 100, 7);
    size_t room = gjcut_room(words.bytes, words.length, input.length), asked, written;
    struct text front = {memory(room), room};
    int good = room < 10 * input.length + 100000 && call(words, input, front, &asked) == GJCUT_NO_ROOM && asked > room;
    if (good) {
        struct text whole = {memory(asked), asked};
        good = call(words, input, whole, &written) == GJCUT_DONE && written == asked && !memcmp(front.bytes, whole.bytes, room);
        free(whole.bytes);
    }
    if (!good) printf("library: many cuts in %zu bytes of room, and then as much as is asked for\n", room);
    free(front.bytes);
    free(input.bytes);
    return good;
}

static int stack_is_enough(const struct example *examples, int count) {
    static uint8_t output[1 << 16];
    struct text room = {output, sizeof output};
    const struct {
        const char *words;
        struct text input;
    } large[] = {
        {"extreme --json", repeated("", "[", 100000, "")},
        {"extreme --json", repeated("", "{\"a\":", 100000, "")},
        {"extreme", repeated("gj-function 1\norder 996\nf 499/996\n", "point 0\npoint 2/3\npoint 1/3\npoint 1\npoint 1/3\npoint 2/3\n", 166, "end\n")},
        {"faces", repeated("gj-function 2\nf 1/1000\npoint 0 0\nend\n", "", 0, "")},
        {"extreme --jumps", jumping(1000)},
        {"extreme --jumps", repeated("gj-function 1\nfamily half 499/1000\nend\n", "", 0, "")},
        {"faces --jumps", jumping(1000)},
        {"check", answer_to("extreme --jumps", jumping(1000))},
        {"mixed", repeated("gj-rule 1\ngmic\nend\nbasic,rhs,c:z\nx,1/2,", "1", 9, "\n")},
        {"problem", problem(100, 1000, 6, 5, 7)},
        {"problem", problem(10, 10000, 6, 1, 7)},
        {"check", derivation(1000, 100, 1)},
        {"check", derivation(0, 10000, 1)},
        {"derive", derivation(10000, 2, 0)},
    };
    size_t base = stack_of(NULL), most = 0;
    for (int i = 0; i < count; i++) {
        size_t used = stack_of(&(struct stacked){examples[i].words, examples[i].input, room}) - base;
        if (used > most) most = used;
    }
    for (size_t i = 0; i < sizeof large / sizeof *large; i++) {
        size_t used = stack_of(&(struct stacked){text_of(large[i].words), large[i].input, room}) - base;
        if (used > most) most = used;
        free(large[i].input.bytes);
    }
    printf("library: the calls use %zu bytes of stack at most, and the header says %d\n", most, GJCUT_STACK);
    return most <= GJCUT_STACK;
}

/* The call on an input, watched, with the block of this number refused. */
static int watched(struct text words, struct text input, struct text output, long refused, size_t *written) {
    heap.asked = 0, heap.held = heap.most = 0, heap.refused = refused, heap.watched = 1;
    int status = call(words, input, output, written);
    heap.watched = 0;
    return status;
}

/* Each allocation of a short example refused in turn: the call ends with 6 and nothing written, or gives its whole answer. */
static int is_refused_well(const struct example *example, long *refusals) {
    static uint8_t output[1 << 16];
    struct text room = {output, sizeof output};
    size_t length = example->output.length, written;
    if (example->input.length > 2000 || length > sizeof output) return 1;
    watched(example->words, example->input, room, -1, &written);
    for (long i = 0, all = heap.asked; i < all; i++, ++*refusals) {
        memset(output, MARK, length);
        int status = watched(example->words, example->input, room, i, &written), good = !heap.held;
        if (status == GJCUT_NO_MEMORY) {
            good = good && !written;
            for (size_t j = 0; j < length; j++) good = good && output[j] == MARK;
        } else
            good = good && status == example->status && written == length && !memcmp(output, example->output.bytes, length);
        if (!good) {
            printf("library: %s with allocation %ld refused ended with %d\n", example->name, i, status);
            return 0;
        }
    }
    return 1;
}

static int refuse(const struct example *examples, int count) {
    long refusals = 0;
    int good = 1;
    for (int i = 0; i < count; i++) good = is_refused_well(&examples[i], &refusals) && good;
    printf("library: %ld allocations refused in turn\n", refusals);
    return good;
}

/* A tableau of 100,000 entries, each name filled up to a width. */
static struct text tableau(int rows, int columns, int width) {
    struct text text = {memory((size_t)(rows + columns) * 300 + 100000 * 12 + 64), 0};
    char *at = (char *)text.bytes;
    at += sprintf(at, "gj-rule 1\ngmic\nend\nbasic,rhs");
    for (int i = 0; i < columns; i++) at += sprintf(at, ",%s%0*d", i % 2 ? "c:" : "x_", width, i);
    for (int i = 0; i < rows; i++) {
        at += sprintf(at, "\nb%0*d,0.500000001", width, i);
        for (int j = 0; j < columns; j++) at += sprintf(at, ",%d.%09d", j % 10, 123456789 + 7 * (i + j));
    }
    text.length = (size_t)(at - (char *)text.bytes);
    return text;
}

/* How many bytes a call holds at most for each byte of its input. In JSON and in a line `sum` two bytes can be a number,
 * and a step of a derivation can have some twenty bytes. */
static size_t held_a_byte(struct text words, struct text input) {
    static const char title[] = "gj-derivation";
    int has_steps = input.length >= sizeof title && memcmp(input.bytes, title, sizeof title - 1) == 0;
    if (has_steps || is_for_problems(words)) return 40;
    return gjcut_has_word(words.bytes, words.length, "--json") ? 30 : 6;
}

static int holds_at_most(const char *name, struct text words, struct text input, struct text output) {
    size_t written, allowed = gjcut_has_word(words.bytes, words.length, "--jumps") ? 2000000 : 1000000;
    watched(words, input, output, -1, &written);
    allowed += held_a_byte(words, input) * input.length + 6 * written;
    int good = !heap.held && heap.most <= allowed;
    if (!good || input.length > 1000000 || written > 1000000)
        printf("library: %s, %zu bytes of input, %zu of answer: %.1f MB held at most\n", name, input.length, written, (double)heap.most / 1e6);
    return good;
}

static int heap_is_enough(const struct example *examples, int count) {
    struct text output = {memory(40000000), 40000000};
    const struct {
        const char *words;
        struct text input;
    } large[] = {
        {"cut", tableau(10, 10000, 6)},
        {"cut", tableau(1000, 100, 6)},
        {"cut", tableau(10000, 10, 6)},
        {"cut", tableau(10, 10000, 250)},
        {"mixed", tableau(10, 10000, 6)},
        {"mixed", tableau(1000, 100, 6)},
        {"mixed", tableau(10000, 10, 6)},
        {"mixed", tableau(10, 10000, 250)},
        {"faces", repeated("gj-function 2\nf 1/1000\npoint 0 0\nend\n", "", 0, "")},
        {"extreme --jumps", jumping(1000)},
        {"extreme --jumps", repeated("gj-function 1\nfamily half 499/1000\nend\n", "", 0, "")},
        {"faces --jumps", jumping(1000)},
        {"check", answer_to("extreme --jumps", jumping(1000))},
        {"extreme", repeated("gj-function 1\nfamily gmic 499/1000\nend\n", "", 0, "")},
        {"group", repeated("gj-function 1\nfamily gmic 59/120\nend\n", "", 0, "")},
        {"minimal", repeated("", "\n", 16777216, "")},
        {"extreme --json", repeated("{\"value\":[", "1,", 8000000, "1]}")},
        {"problem", problem(100, 1000, 6, 5, 7)},
        {"problem", problem(10, 10000, 6, 10, 7)},
        {"problem", problem(10, 10000, 130, 10, 7)},
        {"problem", problem(8200, 0, 6, 100, 1)},
        {"problem", repeated("gj-problem 1\nrule gmic\n", "\n", 16777000, "end\n")},
        {"check", derivation(10000, 100, 1)},
        {"check", derivation(0, 10000, 1)},
        {"derive", derivation(10000, 2, 0)},
        {"derive", derivation(1000, 100, 0)},
    };
    int good = 1;
    for (int i = 0; i < count; i++) good = holds_at_most(examples[i].name, examples[i].words, examples[i].input, output) && good;
    for (size_t i = 0; i < sizeof large / sizeof *large; i++) {
        good = holds_at_most(large[i].words, text_of(large[i].words), large[i].input, output) && good;
        free(large[i].input.bytes);
    }
    free(output.bytes);
    return good;
}

/* The resident memory, in pages. */
static long resident(void) {
    long size = 0, pages = 0;
    FILE *file = fopen("/proc/self/statm", "r");
    if (file && fscanf(file, "%ld %ld", &size, &pages) != 2) pages = 0;
    if (file) fclose(file);
    return pages;
}

static double seconds(void) {
    struct timespec now;
    clock_gettime(CLOCK_PROCESS_CPUTIME_ID, &now);
    return (double)now.tv_sec + 1e-9 * (double)now.tv_nsec;
}

static int take_time(long calls, const struct example *example) {
    size_t room = example->output.length, written = 0;
    uint8_t *output = memory(room);
    int good = 1;
    long before = 0;
    double begun = 0;
    for (long i = -100; i < calls; i++) {
        if (!i) before = resident(), begun = seconds();
        int ended = call(example->words, example->input, (struct text){output, room}, &written);
        good = good && ended == example->status && written == room;
    }
    printf("%s: %.1f microseconds a call, %ld pages more after %ld calls\n", example->name, 1e6 * (seconds() - begun) / (double)calls,
           resident() - before, calls);
    free(output);
    return good;
}

int main(int count, char **words) {
    int threads = count > 1 && !strcmp(words[1], "-threads"), time = count > 3 && !strcmp(words[1], "-time");
    int stack = count > 1 && !strcmp(words[1], "-stack"), refused = count > 1 && !strcmp(words[1], "-refuse");
    int counted = count > 1 && !strcmp(words[1], "-heap");
    int first = threads || stack || refused || counted ? 2 : time ? 3 : 1, good = 1;
    if (first >= count) {
        fprintf(stderr, "library: no example is named\n");
        return 2;
    }
    struct example *examples = memory((size_t)(count - first) * sizeof *examples);
    for (int i = first; i < count; i++) examples[i - first] = read_example(words[i]);
    if (time)
        good = take_time(atol(words[2]), examples);
    else if (stack)
        good = stack_is_enough(examples, count - first);
    else if (refused)
        good = refuse(examples, count - first);
    else if (counted)
        good = heap_is_enough(examples, count - first);
    else if (threads)
        good = from_threads(examples, count - first);
    else {
        for (int i = 0; i < count - first; i++) good = is_answered(&examples[i]) && good;
        good = others() && many_cuts() && good;
    }
    for (int i = 0; i < count - first; i++) free_example(examples[i]);
    free(examples);
    return !good;
}
