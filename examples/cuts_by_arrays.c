/* The program of safe_cuts_glpk.c, and the same rounds of cuts, by gjcut_solver.h: from the arrays
 * that a solver has, and to arrays. */
#include <glpk.h>
#include <gjcut_solver.h>

enum { ROWS = 3, COLUMNS = 6, WHOLE = 5, ROUNDS = 3, MOST = 100, GRID = 1 << 20 };

/* Maximise the sum of these, with each row at most its right side. The last is continuous. */
static const double gain[COLUMNS] = {37, 22, 34, 38, 23, -2};
static const double left[ROWS][COLUMNS] = {
    {7, 11, 10, 9, 15, -1}, {7, 10, 8, 12, 6, 0}, {11, 5, 7, 5, 15, 0}};
static const double right[ROWS] = {77, 55, 60};

static const double lower[COLUMNS] = {0}, upper[COLUMNS] = {3, 3, 3, 3, 3, INFINITY};
static const char is_whole[COLUMNS] = {1, 1, 1, 1, 1, 0};
static int starts[MOST + 1], indices[MOST * COLUMNS];
static double values[MOST * COLUMNS], row_lower[MOST], row_upper[MOST];
static struct gjcut_program program = {
    COLUMNS, 0, lower, upper, is_whole, starts, indices, values, row_lower, row_upper};

/* A row more, for the library and for GLPK. */
static void add_row(glp_prob *p, int count, const int *places, const double *entries, double low,
                    double high) {
    int i = program.rows++, *columns = indices + starts[i], numbers[COLUMNS + 1];
    starts[i + 1] = starts[i] + count, row_lower[i] = low, row_upper[i] = high;
    for (int k = 0; k < count; k++) {
        columns[k] = places[k], values[starts[i] + k] = entries[k];
        numbers[k + 1] = places[k] + 1;
    }
    glp_add_rows(p, 1);
    glp_set_row_bnds(p, i + 1, isinf(low) ? GLP_UP : GLP_LO, low, high);
    glp_set_mat_row(p, i + 1, count, numbers, entries - 1);
}

static glp_prob *relaxation(void) {
    glp_prob *p = glp_create_prob();
    int places[COLUMNS];
    glp_set_obj_dir(p, GLP_MAX);
    glp_add_cols(p, COLUMNS);
    for (int j = 0; j < COLUMNS; j++) {
        places[j] = j;
        glp_set_obj_coef(p, j + 1, gain[j]);
        glp_set_col_bnds(p, j + 1, isinf(upper[j]) ? GLP_LO : GLP_DB, lower[j], upper[j]);
    }
    for (int i = 0; i < ROWS; i++) add_row(p, COLUMNS, places, left[i], -INFINITY, right[i]);
    return p;
}

static double solve(glp_prob *p) {
    glp_smcp how;
    glp_init_smcp(&how);
    how.msg_lev = GLP_MSG_ERR, how.meth = GLP_DUALP;
    if (glp_simplex(p, &how) != 0 || glp_get_status(p) != GLP_OPT) exit(1);
    return glp_get_obj_val(p);
}

/* The cuts of the rows of the basis whose columns are whole, and not whole at the vertex. */
static int cuts_of_vertex(glp_prob *p, struct gjcut_inequality *cuts) {
    char row_at_upper[MOST], at_upper[COLUMNS];
    int found = 0, rows = program.rows;
    for (int i = 0; i < rows; i++) row_at_upper[i] = glp_get_row_stat(p, i + 1) == GLP_NU;
    for (int j = 0; j < COLUMNS; j++) at_upper[j] = glp_get_col_stat(p, j + 1) == GLP_NU;
    if (!glp_bf_exists(p) && glp_factorize(p) != 0) exit(1);
    for (int row = 1; row <= rows; row++) {
        double multipliers[MOST + 1] = {0}, value;
        int column = glp_get_bhead(p, row) - rows;
        if (column < 1 || !is_whole[column - 1]) continue;
        value = glp_get_col_prim(p, column);
        if (fabs(value - round(value)) < 1e-5) continue;
        multipliers[row] = 1;
        glp_btran(p, multipliers);
        int status =
            gjcut_cut(&program, multipliers + 1, row_at_upper, at_upper, GRID, cuts + found);
        if (status != GJCUT_DONE) exit(status);
        if (!cuts[found].why[0]) found++;
    }
    return found;
}

int main(void) {
    static int places[COLUMNS][COLUMNS];
    static double entries[COLUMNS][COLUMNS];
    struct gjcut_inequality cuts[COLUMNS];
    glp_prob *p = relaxation();
    for (int i = 0; i < COLUMNS; i++) cuts[i].indices = places[i], cuts[i].values = entries[i];
    printf("relaxation: %.3f\n", solve(p));
    for (int i = 1; i <= ROUNDS; i++) {
        int found = cuts_of_vertex(p, cuts);
        for (int k = 0; k < found; k++)
            add_row(p, cuts[k].count, places[k], entries[k], cuts[k].right, INFINITY);
        printf("round %d: %.3f with %d cuts\n", i, solve(p), program.rows - ROWS);
    }
    glp_delete_prob(p);
    return 0;
}
