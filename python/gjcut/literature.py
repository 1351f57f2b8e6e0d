"""Functions of the literature by their parameters, and constructions.

Each family is a call whose defaults are an example. Its help has the formula, the range of the
parameters in which a verdict is known, the source, and what of these is not settled. Outside of the
range it raises `OutOfRange`, unless it is called with check_range=False. `FAMILIES` has them all by
their names:

    >>> from gjcut import literature
    >>> literature.gj_2_slope("3/5", "1/3")
    by_breakpoints('3/5', [(0, 0), ('7/30', '2/3'), ('11/30', '1/3'), ('3/5', 1)])
    >>> literature.FAMILIES["gj_2_slope"].range
    ('0 < f < 1', '0 < lambda_1 <= 1', 'lambda_1 < f / (1 - f)')

What is known of a family is what its source says. What the program says of a member, ask the
program, by `gjcut.extreme`.
"""
from ._constructions import (
    automorphism, average, interpolate, multiplicative_homomorphism, two_slope_approximation,
)  # fmt: skip
from ._continuous_families import (
    bcdsp_arbitrary_slope, dg_2_step_mir, drlm_backward_3_slope, extreme_at_order_7, gj_2_slope,
    gj_forward_3_slope, gmic, k_cut, kf_n_step_mir, kzh_3_slope_param_extreme_2, mlr_cpl3_b_3_slope,
    mlr_cpl3_c_3_slope, mlr_cpl3_d_3_slope, mlr_cpl3_g_3_slope, mlr_cpl3_l_2_slope,
    mlr_cpl3_n_3_slope, psi_n_in_bccz_counterexample_construction, two_slope,
)  # fmt: skip
from ._families_with_jumps import (
    dg_2_step_mir_limit, drlm_2_slope_limit, drlm_3_slope_limit, gomory_fractional, half,
    hildebrand_2_sided_discont_1_slope_1, ll_strong_fractional, rlm_dpl1_extreme_3a,
)  # fmt: skip
from ._family import FAMILIES, Family, OutOfRange

__all__ = [
    "FAMILIES", "Family", "OutOfRange", "automorphism", "average", "bcdsp_arbitrary_slope",
    "dg_2_step_mir", "dg_2_step_mir_limit", "drlm_2_slope_limit", "drlm_3_slope_limit",
    "drlm_backward_3_slope", "extreme_at_order_7", "gj_2_slope", "gj_forward_3_slope", "gmic",
    "gomory_fractional", "half", "hildebrand_2_sided_discont_1_slope_1", "interpolate", "k_cut",
    "kf_n_step_mir", "kzh_3_slope_param_extreme_2", "ll_strong_fractional", "mlr_cpl3_b_3_slope",
    "mlr_cpl3_c_3_slope", "mlr_cpl3_d_3_slope", "mlr_cpl3_g_3_slope", "mlr_cpl3_l_2_slope",
    "mlr_cpl3_n_3_slope", "multiplicative_homomorphism",
    "psi_n_in_bccz_counterexample_construction", "rlm_dpl1_extreme_3a", "two_slope",
    "two_slope_approximation",
]  # fmt: skip
