/* From the arrays of a solver to a text for `gjcut_answer`, and from the answer to arrays again. It
 * needs this file alone, and C99 or C++. Nothing is decided here: whether a cut holds, the library
 * sees to. docs/models.md has an example. */
#ifndef GJCUT_SOLVER_H
#define GJCUT_SOLVER_H

#include <math.h>
#include <stdarg.h>
#include <stdio.h>
#include <stdlib.h>

#include "gjcut.h"

/* A mixed-integer program. -INFINITY and INFINITY are no bounds. The entries of row i stand at
 * starts[i] up to starts[i + 1] - 1. A number is taken as it is if it is a multiple of 1/2^32, as
 * those of cuts are, and else as the shortest decimal of its double, as 0.1. */
struct gjcut_program {
    int columns, rows;
    const double *lower, *upper; /* of columns */
    const char *is_whole;        /* of columns: 1 or 0 */
    const int *starts, *indices;
    const double *values, *row_lower, *row_upper;
};

/* The sum of the values, each times its column, is at least `right`, in doubles exactly. `indices`
 * and `values` have room for all columns. If there is no cut, `why` says so, as docs/solver.md has
 * it, and else it is empty. */
struct gjcut_inequality {
    int count, *indices;
    double *values, right;
    char why[300];
};

struct gjcut_text {
    char *bytes;
    size_t length, room;
    int has_failed;
};

static inline void gjcut_write(struct gjcut_text *text, const char *format, ...) {
    va_list words;
    va_start(words, format);
    int length = vsnprintf(NULL, 0, format, words);
    va_end(words);
    if (text->length + (size_t)length + 1 > text->room) {
        size_t room = 2 * (text->room + (size_t)length + 1);
        char *bytes = (char *)realloc(text->bytes, room);
        if (!bytes) {
            text->has_failed = 1;
            return;
        }
        text->bytes = bytes, text->room = room;
    }
    va_start(words, format);
    vsnprintf(text->bytes + text->length, text->room - text->length, format, words);
    va_end(words);
    text->length += (size_t)length;
}

/* A number, or `-` for a bound that is none. */
static inline void gjcut_write_number(struct gjcut_text *text, double value) {
    const double parts = 4294967296.0, scaled = value * parts;
    char word[64];
    int digits = 0, places;
    if (isinf(value)) {
        gjcut_write(text, " -");
        return;
    }
    if (fabs(scaled) < 4e18 && scaled == floor(scaled)) {
        gjcut_write(text, " %lld/%.0f", (long long)scaled, parts);
        return;
    }
    do snprintf(word, sizeof word, "%.*e", digits, value);
    while (strtod(word, NULL) != value && ++digits < 17);
    places = digits - atoi(strchr(word, 'e') + 1);
    gjcut_write(text, " %.*f", places > 0 ? places : 0, value);
}

/* A fraction of the answer; `*is_exact` falls to 0 if the double is another number. */
static inline double gjcut_read_number(const char *word, int *is_exact) {
    char *rest;
    double top = strtod(word, &rest), bottom = *rest == '/' ? strtod(rest + 1, NULL) : 1;
    int power;
    if (fabs(top) >= 9007199254740992.0 || frexp(bottom, &power) != 0.5) *is_exact = 0;
    return top / bottom;
}

/* The rows that have a multiplier, in the columns that they name, and the sum of the rows, with
 * multipliers over so many parts of a unit; 0 if one of them is too large for that. */
static inline int gjcut_write_problem(struct gjcut_text *text, const struct gjcut_program *p,
                                      const double *multipliers, const char *row_at_upper,
                                      const char *at_upper, char *named, long long parts,
                                      long grid) {
    text->length = 0;
    memset(named, 0, (size_t)p->columns);
    for (int i = 0; i < p->rows; i++) {
        if (!(fabs(multipliers[i]) < 4e18 / (double)parts)) return 0;
        for (int k = p->starts[i]; multipliers[i] != 0 && k < p->starts[i + 1]; k++)
            named[p->indices[k]] = 1;
    }
    gjcut_write(text, "gj-problem 1\nrule gmic\n");
    for (int j = 0; j < p->columns; j++) {
        if (!named[j]) continue;
        gjcut_write(text, "column x%d %s", j, p->is_whole[j] ? "whole" : "continuous");
        gjcut_write_number(text, p->lower[j]);
        gjcut_write_number(text, p->upper[j]);
        gjcut_write(text, "\n");
    }
    for (int i = 0; i < p->rows; i++) {
        if (multipliers[i] == 0) continue;
        int is_equation = p->row_lower[i] == p->row_upper[i];
        int is_upper = isinf(p->row_lower[i]) || (row_at_upper[i] && !isinf(p->row_upper[i]));
        gjcut_write(text, "constraint c%d %s", i, is_equation ? "=" : is_upper ? "<=" : ">=");
        gjcut_write_number(text, is_upper ? p->row_upper[i] : p->row_lower[i]);
        gjcut_write(text, "\n");
        for (int k = p->starts[i]; k < p->starts[i + 1]; k++) {
            gjcut_write(text, "entry x%d", p->indices[k]);
            gjcut_write_number(text, p->values[k]);
            gjcut_write(text, "\n");
        }
    }
    for (int j = 0; j < p->columns; j++)
        if (named[j] && at_upper[j]) gjcut_write(text, "upper x%d\n", j);
    gjcut_write(text, "sum");
    for (int i = 0; i < p->rows; i++)
        if (multipliers[i] != 0)
            gjcut_write(text, " %lld/%lld", llround(multipliers[i] * (double)parts), parts);
    gjcut_write(text, "\nround %ld\ngrid %ld\nend\n", grid, grid);
    return 1;
}

static inline int gjcut_ask(const char *words, const struct gjcut_text *text,
                            struct gjcut_text *answer) {
    int status = GJCUT_NO_ROOM;
    size_t wanted = 1 << 16;
    while (status == GJCUT_NO_ROOM) {
        if (answer->room <= wanted) {
            char *bytes = (char *)realloc(answer->bytes, wanted + 1);
            if (!bytes) return GJCUT_NO_MEMORY;
            answer->bytes = bytes, answer->room = wanted + 1;
        }
        status = gjcut_answer((const uint8_t *)words, strlen(words), (const uint8_t *)text->bytes,
                              text->length, (uint8_t *)answer->bytes, answer->room - 1, &wanted);
    }
    answer->bytes[answer->length = wanted] = 0;
    return status;
}

static inline void gjcut_read_cut(const char *line, struct gjcut_inequality *cut) {
    int column, read = 0, is_exact = 1;
    cut->count = 0, cut->why[0] = 0;
    for (; line && *line; line = strchr(line, '\n') ? strchr(line, '\n') + 1 : NULL) {
        if (strncmp(line, "cut ", 4) == 0) {
            cut->right = gjcut_read_number(line + 4, &is_exact);
        } else if (sscanf(line, "term x%d %n", &column, &read) == 1) {
            cut->indices[cut->count] = column;
            cut->values[cut->count++] = gjcut_read_number(line + read, &is_exact);
        } else {
            sscanf(line, "skip %299[^\n]", cut->why);
        }
    }
    if (!cut->why[0] && !is_exact) strcpy(cut->why, "large");
}

/* The cut that the mixed-integer rule gives of the sum of the rows, each times its multiplier, with
 * numbers over the grid, a power of two, as all numbers on the way to it are, so that none grows
 * long. A row with two sides stands for its upper one if `row_at_upper` has 1 for it, and a column
 * with 1 in `at_upper` is turned by its upper bound. Any multipliers give a cut that holds; those of
 * a row of the inverse of the basis, one that the vertex does not meet. The status is that of the
 * call. */
static inline int gjcut_cut(const struct gjcut_program *p, const double *multipliers,
                            const char *row_at_upper, const char *at_upper, long grid,
                            struct gjcut_inequality *cut) {
    struct gjcut_text text = {NULL, 0, 0, 0}, answer = {NULL, 0, 0, 0};
    char *named = (char *)malloc((size_t)p->columns + 1);
    int status = named ? GJCUT_DONE : GJCUT_NO_MEMORY;
    strcpy(cut->why, "wide");
    /* If a number is too wide, with fewer digits. */
    for (int power = 40; power >= 20 && status == GJCUT_DONE; power -= 10) {
        if (strcmp(cut->why, "wide") != 0) break;
        if (!gjcut_write_problem(&text, p, multipliers, row_at_upper, at_upper, named,
                                 1LL << power, grid))
            continue;
        status = text.has_failed ? GJCUT_NO_MEMORY : gjcut_ask("problem", &text, &answer);
        if (status == GJCUT_DONE) gjcut_read_cut(answer.bytes, cut);
        else if (answer.bytes) snprintf(cut->why, sizeof cut->why, "%s", answer.bytes);
    }
    free(named);
    free(text.bytes);
    free(answer.bytes);
    return status;
}

#endif
