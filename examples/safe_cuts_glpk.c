/* Cuts of a small mixed-integer program, with GLPK: five whole columns from 0 to 3, and a continuous
 * one, z, of at least 0.
 *
 * In each round GLPK solves the relaxation. For each whole column that is not whole there,
 * `glp_btran` gives the multipliers with which the constraints add up to its row. They are doubles,
 * and the command `problem` makes cuts of them: cuts in the columns of the program, with numbers over
 * 2^20, so that they are doubles exactly. These are constraints of the next round. The bound is
 * printed after each round, and that which GLPK reaches by its own cuts of this kind. Then each
 * whole point of the program is tried with its least z: no cut may remove it. As z has no greatest
 * value, no cut may have an entry below 0 there.
 */
#include <glpk.h>
#include <math.h>
#include <stdio.h>
#include <stdlib.h>
#include <gjcut.h>

enum { ROWS = 3, COLUMNS = 6, WHOLE = 5, MOST = 3, ROUNDS = 3, CUTS = 100, GRID = 1 << 20 };

/* Maximise the sum of these, with each row at most its right side. The last column is z. */
static const int gain[COLUMNS] = {37, 22, 34, 38, 23, -2};
static const int left[ROWS][COLUMNS] = {
    {7, 11, 10, 9, 15, -1}, {7, 10, 8, 12, 6, 0}, {11, 5, 7, 5, 15, 0}};
static const int right[ROWS] = {77, 55, 60};

/* Each cut: the sum of these over GRID, times the columns, is at least the last one over GRID. */
static long long cuts[CUTS][COLUMNS + 1];
static int known, found;

/* Appends to a text, which has room. */
#define WRITE(...) end += sprintf(end, __VA_ARGS__)

/* The problem with the cuts that are known, and the sum by these multipliers, over so many parts.
 * No multiplier times the parts is above 2^62. */
static size_t write_problem(char *input, glp_prob *p, const double *multipliers, long long parts) {
    char *end = input;
    WRITE("gj-problem 1\nrule gmic\n");
    for (int j = 0; j < WHOLE; j++) WRITE("column x%d whole 0 %d\n", j, MOST);
    WRITE("column x%d continuous 0 -\n", WHOLE);
    for (int i = 0; i < ROWS; i++) {
        WRITE("constraint c%d <= %d\n", i, right[i]);
        for (int j = 0; j < COLUMNS; j++) WRITE("entry x%d %d\n", j, left[i][j]);
    }
    for (int i = 0; i < known; i++) {
        WRITE("constraint cut%d >= %lld/%d\n", i, cuts[i][COLUMNS], GRID);
        for (int j = 0; j < COLUMNS; j++) WRITE("entry x%d %lld/%d\n", j, cuts[i][j], GRID);
    }
    for (int j = 0; j < WHOLE; j++)
        if (glp_get_col_stat(p, j + 1) == GLP_NU) WRITE("upper x%d\n", j);
    WRITE("sum");
    for (int i = 1; i <= ROWS + known; i++)
        WRITE(" %lld/%lld", llround(multipliers[i] * (double)parts), parts);
    WRITE("\nround %d\ngrid %d\nend\n", GRID, GRID);
    return (size_t)(end - input);
}

/* Reads a fraction k/2^p of the answer as a whole number over GRID. */
static long long over_grid(const char *word) {
    char *rest;
    long long numerator = strtoll(word, &rest, 10);
    return numerator * (GRID / (*rest == '/' ? strtoll(rest + 1, NULL, 10) : 1));
}

/* Takes the cut of the answer, if there is one and its numbers are doubles exactly. */
static void take_cut(char *output) {
    long long cut[COLUMNS + 1] = {0};
    char word[100];
    int column, is_cut = 0;
    for (char *line = strtok(output, "\n"); line; line = strtok(NULL, "\n")) {
        if (sscanf(line, "cut %99s", word) == 1) {
            cut[COLUMNS] = over_grid(word);
            is_cut = 1;
        } else if (sscanf(line, "term x%d %99s", &column, word) == 2) {
            cut[column] = over_grid(word);
        }
    }
    for (int j = 0; j <= COLUMNS; j++) is_cut = is_cut && llabs(cut[j]) < 1LL << 53;
    if (is_cut && found < CUTS) memcpy(cuts[found++], cut, sizeof cut);
}

/* The cut of the row of the basis with this number, if it gives one. */
static void cut_of_row(glp_prob *p, int row) {
    static char input[1 << 17], output[1 << 14];
    static const int powers[] = {40, 30, 20};
    double multipliers[1 + ROWS + CUTS] = {0};
    multipliers[row] = 1;
    glp_btran(p, multipliers);
    for (int i = 1; i <= ROWS + known; i++)
        if (!(fabs(multipliers[i]) < 1 << 20)) return;
    for (int i = 0; i < 3; i++) {
        size_t n = write_problem(input, p, multipliers, 1LL << powers[i]), written;
        int status = gjcut_answer((const uint8_t *)"problem", 7, (uint8_t *)input, n,
                                  (uint8_t *)output, sizeof output - 1, &written);
        if (status == GJCUT_NO_ROOM) {
            printf("status %d: an answer of %zu bytes\n", status, written);
            exit(1);
        }
        output[written] = 0;
        if (status != GJCUT_DONE) {
            printf("status %d: %s\n", status, output);
            exit(1);
        }
        /* If a number was too wide, with fewer digits. */
        if (!strstr(output, "skip wide")) break;
    }
    take_cut(output);
}

/* The relaxation with the constraints alone. */
static glp_prob *relaxation(void) {
    glp_prob *p = glp_create_prob();
    glp_set_obj_dir(p, GLP_MAX);
    glp_add_cols(p, COLUMNS);
    for (int j = 1; j <= COLUMNS; j++) {
        int is_whole = j <= WHOLE;
        glp_set_obj_coef(p, j, gain[j - 1]);
        glp_set_col_kind(p, j, is_whole ? GLP_IV : GLP_CV);
        glp_set_col_bnds(p, j, is_whole ? GLP_DB : GLP_LO, 0, MOST);
    }
    for (int i = 0; i < ROWS; i++) {
        int columns[COLUMNS + 1], row = glp_add_rows(p, 1);
        double entries[COLUMNS + 1];
        for (int j = 1; j <= COLUMNS; j++) columns[j] = j, entries[j] = left[i][j - 1];
        glp_set_row_bnds(p, row, GLP_UP, 0, right[i]);
        glp_set_mat_row(p, row, COLUMNS, columns, entries);
    }
    return p;
}

/* Puts the new cuts into the relaxation. */
static void add_cuts(glp_prob *p) {
    for (; known < found; known++) {
        int columns[COLUMNS + 1], row = glp_add_rows(p, 1);
        double entries[COLUMNS + 1];
        for (int j = 1; j <= COLUMNS; j++)
            columns[j] = j, entries[j] = (double)cuts[known][j - 1] / GRID;
        glp_set_row_bnds(p, row, GLP_LO, (double)cuts[known][COLUMNS] / GRID, 0);
        glp_set_mat_row(p, row, COLUMNS, columns, entries);
    }
}

static double solve(glp_prob *p) {
    glp_smcp how;
    glp_init_smcp(&how);
    how.msg_lev = GLP_MSG_ERR;
    how.meth = GLP_DUALP;
    if (glp_simplex(p, &how) != 0 || glp_get_status(p) != GLP_OPT) exit(1);
    return glp_get_obj_val(p);
}

/* Keeps the bound before the first branch, and ends the search there. */
static void at_root(glp_tree *tree, void *bound) {
    if (glp_ios_reason(tree) != GLP_IBRANCH) return;
    *(double *)bound = glp_get_obj_val(glp_ios_get_prob(tree));
    glp_ios_terminate(tree);
}

/* The bound at the root with GLPK's own mixed-integer cuts; the best value if all is said there. */
static double own_bound(void) {
    glp_prob *p = relaxation();
    glp_iocp how;
    double bound = INFINITY;
    solve(p);
    glp_init_iocp(&how);
    how.msg_lev = GLP_MSG_ERR;
    how.gmi_cuts = GLP_ON;
    how.cb_func = at_root;
    how.cb_info = &bound;
    glp_intopt(p, &how);
    if (isinf(bound)) bound = glp_mip_obj_val(p);
    glp_delete_prob(p);
    return bound;
}

/* The least z with the whole point, or -1 if there is none: the entries of z are 0 and -1. */
static long long least_z(const int *point) {
    long long least = 0;
    for (int i = 0; i < ROWS; i++) {
        long long over = -right[i];
        for (int j = 0; j < WHOLE; j++) over += left[i][j] * point[j];
        if (over > 0 && left[i][WHOLE] == 0) return -1;
        if (over > least) least = over;
    }
    return least;
}

/* Whether each cut holds at the whole point with the least z, and with each greater one. */
static int is_kept(const int *point, long long least) {
    for (int i = 0; i < found; i++) {
        long long sum = cuts[i][WHOLE] * least;
        for (int j = 0; j < WHOLE; j++) sum += cuts[i][j] * point[j];
        if (sum < cuts[i][COLUMNS] || cuts[i][WHOLE] < 0) return 0;
    }
    return 1;
}

/* Tries each whole point, and tells how many are removed. */
static int try_points(void) {
    int points = 0, removed = 0, point[WHOLE];
    long long best = -1;
    for (int n = 0; n < 1 << 2 * WHOLE; n++) {
        for (int j = 0; j < WHOLE; j++) point[j] = n >> 2 * j & MOST;
        long long least = least_z(point), value = gain[WHOLE] * least;
        if (least < 0) continue;
        for (int j = 0; j < WHOLE; j++) value += gain[j] * point[j];
        if (value > best) best = value;
        points++;
        removed += !is_kept(point, least);
    }
    printf("%d whole points, the best has %lld; %d removed\n", points, best, removed);
    return removed;
}

int main(void) {
    glp_prob *p = relaxation();
    printf("relaxation: %.3f\n", solve(p));
    for (int i = 1; i <= ROUNDS; i++) {
        if (!glp_bf_exists(p) && glp_factorize(p) != 0) return 1;
        for (int row = 1; row <= ROWS + known; row++) {
            int column = glp_get_bhead(p, row) - glp_get_num_rows(p);
            if (column < 1 || column > WHOLE) continue;
            double value = glp_get_col_prim(p, column);
            if (fabs(value - round(value)) > 1e-5) cut_of_row(p, row);
        }
        add_cuts(p);
        printf("round %d: %.3f with %d cuts\n", i, solve(p), known);
    }
    glp_delete_prob(p);
    printf("GLPK's own cuts at the root: %.3f\n", own_bound());
    return try_points() != 0;
}
