/* Rounds of cuts of a model in MPS, with Clp: getBInvRow gives the multipliers of the rows, and
 * gjcut_solver.h makes cuts of them.
 *
 *     cuts_clp MODEL.mps ROUNDS
 */
#include <coin/ClpSimplex.hpp>
#include <coin/CoinPackedMatrix.hpp>
#include <gjcut_solver.h>
#include <vector>

struct Cut {
    std::vector<int> indices;
    std::vector<double> values;
    double right;
};

/* The program of the model, by its rows. A bound from 1e20 on is none. */
struct Arrays {
    std::vector<double> lower, upper, row_lower, row_upper, values;
    std::vector<char> is_whole, at_upper, row_at_upper;
    std::vector<int> starts{0}, indices;

    static double bound(double x) { return std::fabs(x) < 1e20 ? x : std::copysign(INFINITY, x); }

    explicit Arrays(ClpSimplex &model) {
        CoinPackedMatrix by_rows;
        by_rows.reverseOrderedCopyOf(*model.matrix());
        for (int j = 0; j < model.numberColumns(); j++) {
            lower.push_back(bound(model.columnLower()[j]));
            upper.push_back(bound(model.columnUpper()[j]));
            is_whole.push_back(model.isInteger(j));
            at_upper.push_back(model.getColumnStatus(j) == ClpSimplex::atUpperBound);
        }
        for (int i = 0; i < model.numberRows(); i++) {
            const auto row = by_rows.getVector(i);
            const double value = model.primalRowSolution()[i];
            row_lower.push_back(bound(model.rowLower()[i]));
            row_upper.push_back(bound(model.rowUpper()[i]));
            row_at_upper.push_back(row_upper[i] - value < value - row_lower[i]);
            for (int k = 0; k < row.getNumElements(); k++) {
                indices.push_back(row.getIndices()[k]);
                values.push_back(row.getElements()[k]);
            }
            starts.push_back((int)indices.size());
        }
    }

    gjcut_program program() const {
        return {(int)lower.size(), (int)row_lower.size(), lower.data(),    upper.data(),
                is_whole.data(),   starts.data(),         indices.data(),  values.data(),
                row_lower.data(),  row_upper.data()};
    }
};

/* The cuts of the rows of the basis whose columns are whole, and not whole at the vertex. */
static std::vector<Cut> cuts_of_vertex(ClpSimplex &model) {
    const Arrays arrays(model);
    const gjcut_program program = arrays.program();
    std::vector<Cut> found;
    std::vector<int> basic(program.rows), indices(program.columns);
    std::vector<double> multipliers(program.rows), values(program.columns);
    model.getBasics(basic.data());
    for (int i = 0; i < program.rows; i++) {
        const int j = basic[i];
        if (j >= program.columns || !arrays.is_whole[j]) continue;
        const double value = model.primalColumnSolution()[j];
        if (std::fabs(value - std::round(value)) < 1e-5) continue;
        model.getBInvRow(i, multipliers.data());
        gjcut_inequality cut = {0, indices.data(), values.data(), 0, ""};
        const int status = gjcut_cut(&program, multipliers.data(), arrays.row_at_upper.data(),
                                     arrays.at_upper.data(), 1 << 20, &cut);
        if (status != GJCUT_DONE) std::exit(status);
        if (cut.why[0] || cut.count == 0) continue;
        found.push_back({{indices.begin(), indices.begin() + cut.count},
                         {values.begin(), values.begin() + cut.count},
                         cut.right});
    }
    return found;
}

int main(int count, char **words) {
    ClpSimplex model;
    model.setLogLevel(0);
    if (count != 3 || model.readMps(words[1], true) != 0) return 1;
    model.initialSolve();
    std::printf("relaxation: %.4f\n", model.objectiveValue());
    for (int i = 1; i <= std::atoi(words[2]); i++) {
        /* So that the basis is kept. */
        model.dual(0, 7);
        const auto cuts = cuts_of_vertex(model);
        for (const auto &cut : cuts)
            model.addRow((int)cut.indices.size(), cut.indices.data(), cut.values.data(), cut.right,
                         COIN_DBL_MAX);
        model.dual();
        std::printf("round %d: %.4f with %zu cuts\n", i, model.objectiveValue(), cuts.size());
    }
    return 0;
}
