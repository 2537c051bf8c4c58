/* Helmholtz energies of tank fluids after SAFT-VRQ Mie (the quantum model) and SAFT-VR Mie: the C boundary of domthelv.
 * Link libdomthelv.a: for x86-64, as tools/library proves and builds it, or for 64-bit ARM, as tools/aarch64 compiles the same module;
 * it calls memcpy and memset. DATASHEET.md has accuracy, times, stack and what is proved. domthelv.hpp has types for C++.
 *
 * ANSWERS. A function that can refuse gives 0 where the call is accepted, and the refusal's number (enum domthelv_refusal)
 * where it is not. The first that applies, in the order beside the function, is given; a refused call leaves everything it
 * was lent with its bits (proved up to the payload of a NaN, of which the logic has one; for payloads tools/differential
 * tries it). Every number, in a list too, may hold any bits, NaN included: the call ends, accepted or refused.
 *
 * UNITS. Temperatures and energy parameters (epsilon_k: over Boltzmann's constant) and potentials: kelvin. Lengths
 * (sigma, radii, diameters): angstrom. Masses: kilograms a molecule. Densities: molecules of a component per cubic
 * angstrom. Exponents lr, la, segment numbers m, fractions and k_ij, l_ij, gamma_ij: plain numbers. Energies: the density of
 * the reduced Helmholtz energy, A / (V k T), per cubic angstrom. quantum_d: square angstrom. r0 of SAFT-VR Mie: over sigma_ij.
 *
 * NOT IN THE ENERGIES. No ideal gas. The quantum model's residual energy is the sum of its contributions. SAFT-VR Mie has
 * dispersion and chain alone, without the hard-sphere part (and association): no total energy follows from it.
 *
 * LIMITS, ends included unless '<' is written; outside is 2, a count or an index outside is 1.
 *   count (components)      1 to DOMTHELV_SIDE; an index i, j is below the count
 *   sigma                   0.5 to 16                       epsilon_k    0.1 to 5000
 *   la, lr                  3 < la < lr <= 64               mass         1e-27 to 1e-23
 *   m                       SAFT-VR Mie 0.5 to 64; quantum model exactly 1 (else 3)
 *   order (Feynman-Hibbs)   0, 1, 2 (else 4); the orders 1 and 2 may not meet in one mixture (5)
 *   k_ij, l_ij, gamma_ij    -0.9 to 0.9, the same bits at (i, j) and (j, i), +0 at (i, i)
 *   temperature             1 to 2000
 *   fractions, densities    0 to 1 (-0 counts as 0); fractions need not sum to 1
 *   layers of a tank        1 to DOMTHELV_MOST_LAYERS (else 14), each with a volume 0 < volume <= 1e30 cubic angstrom
 * Sets, tables, diameters and radii are read as they are: where they were filled by hand, only the count and the order
 * bytes of pairs in use (i, j below the count) are tested. Elementary functions have their domain beside them (else 6).
 *
 * LISTS. A list is a pointer and a length, and the length is exact, not a least one: another is 1 (but for cards, which may
 * have any, and be written into lists that are longer). Component lists and
 * diameters have the count as length, pair lists k_ij, l_ij, gamma_ij its square (entry (i, j) at count i + j). Sheets always
 * have the side DOMTHELV_SIDE: entry (i, j) at DOMTHELV_AT(sheet, i, j), unused entries +0. The other lengths are below.
 *
 * MEMORY. The caller sees to this, and nothing tests it:
 * - each pointer is aligned for its type and valid for as many elements as its length says, whatever the length; one
 *   without a length (double *out) is valid for one element, and never NULL;
 * - a list of length 0 is never accepted, and nothing is read or written through its pointer, which may then be NULL;
 * - a list that is written, or *out, overlaps no other list. Lists that are only read may overlap;
 * - the elements of a list that is read were written before; a bool is 0 or 1 (C's and C++'s bool are).
 * Nothing is kept after a call, and nothing is allocated. There is no state outside the arguments: calls may run at the same
 * time in any threads, and in a handler, if no list that one of them writes is in use by another.
 * A call takes at most DOMTHELV_STACK bytes of stack. It ends after a bounded number of steps; docs/DATASHEET.md has times.
 *
 * FLOATING POINT. Rounding to nearest, subnormal numbers kept, traps masked, as a thread has them at its start. Results
 * are not what is proved where flush-to-zero or denormals-are-zero is set, as gcc does where it links with -ffast-math.
 *
 * A quantum set is its count, m (DOMTHELV_M), sheets (DOMTHELV_SHEETS) and orders (DOMTHELV_ORDERS); a set of SAFT-VR Mie
 * its count, lists (DOMTHELV_LISTS: m, sigma, epsilon_k, lr, la, DOMTHELV_SIDE each) and sheets (DOMTHELV_SHEETS). */
#ifndef DOMTHELV_H
#define DOMTHELV_H

#include <stdbool.h>
#include <stddef.h>
#include <stdint.h>

/* The version of this boundary. */
#define DOMTHELV_VERSION "0.1.0"
#define DOMTHELV_VERSION_MAJOR 0
#define DOMTHELV_VERSION_MINOR 1
#define DOMTHELV_VERSION_PATCH 0

/* The most components, and the lengths that hang on it. */
#define DOMTHELV_SIDE 12
#define DOMTHELV_CARD_SIDE 8                    /* the most components on a fuel card, whatever the side */
#define DOMTHELV_CARD 771                       /* the longest fuel card, bytes */
#define DOMTHELV_NEWER_CARD 1557                /* the longest newer card, bytes */
#define DOMTHELV_SHEET (DOMTHELV_SIDE * DOMTHELV_SIDE)
#define DOMTHELV_M DOMTHELV_SIDE                /* m of a quantum set */
#define DOMTHELV_ORDERS DOMTHELV_SHEET          /* orders of a quantum set, bytes */
#define DOMTHELV_LISTS (5 * DOMTHELV_SIDE)      /* lists of a SAFT-VR Mie set */
#define DOMTHELV_SHEETS (6 * DOMTHELV_SHEET)    /* sheets of a set */
#define DOMTHELV_TABLE (4 * DOMTHELV_SHEET)     /* temperature table */
#define DOMTHELV_COUNTS (3 * DOMTHELV_SHEET)    /* counts beside it, bytes: searches for sigma, zero, depth */

/* The most layers of a tank. */
#define DOMTHELV_MOST_LAYERS 32

/* The desk: its places for queries, and the lengths of its two lists. */
#define DOMTHELV_DESK_PLACES 16
#define DOMTHELV_DESK_FLOATS (DOMTHELV_DESK_PLACES * (10 * DOMTHELV_SHEET + 3 * DOMTHELV_SIDE + 1))
#define DOMTHELV_DESK_BYTES (DOMTHELV_DESK_PLACES * (DOMTHELV_SHEET + 4) + 1)

/* Lengths of `out`, and what stands at each place. */
#define DOMTHELV_ENERGIES 3      /* 0 hard sphere, 1 dispersion, 2 non-additive (+0 where not wanted) */
#define DOMTHELV_TOTAL 4         /* 0 hard sphere and dispersion, 1 its remainder; 2 that and non-additive, 3 its remainder */
#define DOMTHELV_ENERGIES_ENDS 6 /* low and high end: 0, 1 hard sphere; 2, 3 dispersion; 4, 5 non-additive */
#define DOMTHELV_ENERGIES_SLOPES 6 /* value and slope: 0, 1 hard sphere; 2, 3 dispersion; 4, 5 non-additive */
#define DOMTHELV_ENDS 2          /* 0 low end, 1 high end */
#define DOMTHELV_RADII 6         /* radius and last potential of the search for: 0, 1 sigma; 2, 3 zero; 4, 5 depth */
#define DOMTHELV_ORDER_COUNTS 3  /* whole numbers: order lists that 0 pass the order walk, 1 meet 4, 2 meet 5 */
#define DOMTHELV_RADII_COUNTS 3  /* bytes: evaluations of the search for 0 sigma, 1 zero, 2 depth; 1 to 19, or 20 if spent */

/* Entry (i, j) of a sheet, in the sheets of a set, in a table and in counts. */
#define DOMTHELV_AT(sheet, i, j) ((sheet) * DOMTHELV_SHEET + DOMTHELV_SIDE * (i) + (j))
enum domthelv_vrq_sheet { /* the sheets of a quantum set */
    DOMTHELV_VRQ_SIGMA_IJ, DOMTHELV_VRQ_EPSILON_K_IJ, DOMTHELV_VRQ_C_IJ, DOMTHELV_VRQ_LAMBDA_R_IJ, DOMTHELV_VRQ_LAMBDA_A_IJ,
    DOMTHELV_VRQ_MASS_IJ
};
enum domthelv_vr_sheet { /* the sheets of a SAFT-VR Mie set */
    DOMTHELV_VR_SIGMA_IJ, DOMTHELV_VR_EPSILON_K_IJ, DOMTHELV_VR_LR_IJ, DOMTHELV_VR_LA_IJ, DOMTHELV_VR_C_IJ, DOMTHELV_VR_ALPHA_IJ
};
enum domthelv_table_sheet { /* the sheets of a temperature table */
    DOMTHELV_TABLE_SIGMA_EFF, DOMTHELV_TABLE_HS_DIAMETER, DOMTHELV_TABLE_EPSILON_K_EFF, DOMTHELV_TABLE_QUANTUM_D
};

/* The most stack that a call takes, in bytes; a test adds up the frames of the built library. */
#define DOMTHELV_STACK 65536

/* What a call gives: 0, or why it was refused. */
enum domthelv_refusal {
    DOMTHELV_ACCEPTED = 0,
    DOMTHELV_LENGTH = 1,         /* a count, an index or a list's length is outside */
    DOMTHELV_LIMIT = 2,          /* a number is outside its limit */
    DOMTHELV_SEGMENT_NUMBER = 3, /* an m of the quantum model is not 1 */
    DOMTHELV_ORDER = 4,          /* an order is above 2 */
    DOMTHELV_MIXED_ORDERS = 5,   /* the orders 1 and 2 meet in a pair */
    DOMTHELV_DOMAIN = 6,         /* an elementary function's argument is outside its domain */
    DOMTHELV_NOT_FINITE = 7,     /* a result is not finite */
    DOMTHELV_NO_ENDS = 8,        /* two ends: a divisor's ends enclose or touch zero, or an end is not finite */
    DOMTHELV_SHORT_CARD = 9,     /* a card is too short for the field in hand */
    DOMTHELV_CARD_HEADING = 10,  /* a card's model is not known, or its count is outside */
    DOMTHELV_CARD_FILLING = 11,  /* a filling bit of a card is 1, or bytes are left over */
    DOMTHELV_SHORT_LIST = 12,    /* a lent list is shorter than the card that it is to hold */
    DOMTHELV_LAYERS = 14,        /* a tank's layer count is outside */
    DOMTHELV_STORED_ZERO = 15,   /* a newer card stores a pair's +0 */
    DOMTHELV_TOO_MANY = 16,      /* more components than an older card holds */
    DOMTHELV_DESK_FULL = 17      /* all places of a desk are occupied */
};

#ifdef __cplusplus
extern "C" {
#endif

/* Elementary functions: 6 if an argument is outside, NaN always. */
uint8_t domthelv_sqrt(double x, double *out);   /* x >= 0, finite; correctly rounded */
uint8_t domthelv_ln(double x, double *out);     /* positive, normal, finite */
uint8_t domthelv_ln_1p(double x, double *out);  /* above -1, at most 2^20 */
uint8_t domthelv_exp(double x, double *out);    /* -700 to 700 */
uint8_t domthelv_exp_m1(double x, double *out); /* -700 to 700 */
uint8_t domthelv_tanh(double x, double *out);   /* -350 to 350 */
uint8_t domthelv_powf(double base, double exponent, double *out); /* base 1/32 to 32, exponent -192 to 192 */

/* The whole power, total: for each binary digit of |n| from the lowest; 1 divided by that for a negative n. */
double domthelv_powi(double x, int32_t n);

/* Quantum model (SAFT-VRQ Mie). */

/* Tests one record's m: 3 if it is not 1.0, NaN included. */
uint8_t domthelv_vrq_record_m(double m);

/* Parameters. 1: a list of the set that is lent, the count is outside, or another list's length is not the count
 * (k_ij, l_ij: its square); 2: a number outside its limit, m excepted; 3: an m that is not 1.0; then pair by pair
 * 4: an order above 2, 5: the orders 1 and 2; 6: an elementary argument outside. */
uint8_t domthelv_vrq_parameters(size_t count, const double *m, size_t m_len, const double *sigma, size_t sigma_len,
    const double *epsilon_k, size_t epsilon_k_len, const double *lr, size_t lr_len, const double *la, size_t la_len,
    const double *mass, size_t mass_len, const uint8_t *order, size_t order_len, const double *k_ij, size_t k_ij_len,
    const double *l_ij, size_t l_ij_len, double *set_m, size_t set_m_len, double *set_sheets, size_t set_sheets_len,
    uint8_t *set_orders, size_t set_orders_len);

/* How the order lists fall: of the 4^count lists of orders 0 to 3, how many pass the walk over the pairs, meet 4 and
 * meet 5. out (3). 1: out's length, the count. */
uint8_t domthelv_order_counts(size_t count, uint64_t *out, size_t out_len);

/* Temperature table (sigma_eff, hs_diameter, epsilon_k_eff, quantum_d) and counts (searches for sigma, zero,
 * depth; 1 to 19, or 20 if spent). 1: the count, a list of the set or a lent list; 4: an order byte of a pair in use is
 * above 2; 2: temperature not 1 to 2000 K; 6; 7: a value to be written is not finite. */
uint8_t domthelv_vrq_table(size_t count, const double *m, size_t m_len, const double *sheets, size_t sheets_len,
    const uint8_t *orders, size_t orders_len, double temperature, double *table, size_t table_len, uint8_t *counts,
    size_t counts_len);

/* One pair's three searches. out (6): radius and last potential of sigma, zero, depth; counts (3).
 * 1: the count, a list of the set, an index, out or counts; 4: an order; 2: temperature; 6. */
uint8_t domthelv_vrq_radii(size_t count, const double *m, size_t m_len, const double *sheets, size_t sheets_len,
    const uint8_t *orders, size_t orders_len, size_t i, size_t j, double temperature, double *out, size_t out_len,
    uint8_t *counts, size_t counts_len);

/* Energies. out (3): hard sphere, dispersion, non-additive (+0 where not wanted). 1: the count, a list of the set,
 * fractions, densities, table or out; 4: an order; 2: temperature, a fraction or a density not 0 to 1; 6;
 * 7: a contribution is not finite. */
uint8_t domthelv_vrq_energies(size_t count, const double *m, size_t m_len, const double *sheets, size_t sheets_len,
    const uint8_t *orders, size_t orders_len, double temperature, const double *fractions, size_t fractions_len,
    const double *densities, size_t densities_len, const double *table, size_t table_len, bool non_additive,
    double *out, size_t out_len);

/* The energies as one number. out (4): the sum of hard sphere and dispersion and its remainder, then the sum of that and
 * the non-additive part and its remainder (where not wanted: the first sum again and +0). A sum and its remainder are
 * together exact; no remainder is +0. 1: the count, a list of the set, fractions, densities, table or out; 4: an order;
 * 2: temperature, a fraction or a density not 0 to 1; 6; 7: a contribution or a sum is not finite. */
uint8_t domthelv_vrq_total(size_t count, const double *m, size_t m_len, const double *sheets, size_t sheets_len,
    const uint8_t *orders, size_t orders_len, double temperature, const double *fractions, size_t fractions_len,
    const double *densities, size_t densities_len, const double *table, size_t table_len, bool non_additive,
    double *out, size_t out_len);

/* Two ends of the energies. out (6): low and high end of each of the three (+0, +0 where not wanted). Refusals as of the energies,
 * then 8: at an operation on the way a divisor's ends enclose or touch zero, or an end is not finite. */
uint8_t domthelv_vrq_energies_ends(size_t count, const double *m, size_t m_len, const double *sheets, size_t sheets_len,
    const uint8_t *orders, size_t orders_len, double temperature, const double *fractions, size_t fractions_len,
    const double *densities, size_t densities_len, const double *table, size_t table_len, bool non_additive,
    double *out, size_t out_len);

/* Energies of a tank at rest, in layers listed from the bottom up over one set: each layer's energies by its own table,
 * multiplied by its volume and then by its temperature, added from the bottom up from +0. temperatures and volumes have a place
 * for each layer, fractions and densities one for each component, layer by layer (count * layers). out (3): hard sphere,
 * dispersion, non-additive (+0 where not wanted); in kelvin. 14: the layer count, before all else; 1: the count, a list of the
 * set, temperatures, fractions, densities, volumes or out; 4: an order; then layer by layer, the first refused layer's number:
 * 2: its temperature, a fraction, a density or its volume; 6 and 7 of its table; 6 and 7 of its energies; after all layers
 * 7: an energy of the tank is not finite. */
uint8_t domthelv_vrq_tank(size_t count, const double *m, size_t m_len, const double *sheets, size_t sheets_len,
    const uint8_t *orders, size_t orders_len, size_t layers, const double *temperatures, size_t temperatures_len,
    const double *fractions, size_t fractions_len, const double *densities, size_t densities_len,
    const double *volumes, size_t volumes_len, bool non_additive, double *out, size_t out_len);

/* Two ends of the same. out (6): low and high end of each of the three (+0, +0 where not wanted). Refusals as of the tank, then
 * 8: in a layer or in the tank's sums, a divisor's ends enclose or touch zero, or an end is not finite. */
uint8_t domthelv_vrq_tank_ends(size_t count, const double *m, size_t m_len, const double *sheets, size_t sheets_len,
    const uint8_t *orders, size_t orders_len, size_t layers, const double *temperatures, size_t temperatures_len,
    const double *fractions, size_t fractions_len, const double *densities, size_t densities_len,
    const double *volumes, size_t volumes_len, bool non_additive, double *out, size_t out_len);

/* Energies with slopes, by a table of the call's own: temperature, each fraction and each density carry a slope that is supplied,
 * and so does each contribution. out (6): value and slope of hard sphere, dispersion, non-additive (+0, +0 where not wanted). The
 * values are those of the table and the energies without slopes. 1: the count, a list of the set, fractions, densities, either's
 * slopes or out; 4: an order; 2: temperature, a fraction or a density not 0 to 1; 7: a supplied slope is not finite; then 6 and 7
 * of the table, 6 and 7 of the energies, where the slopes' own powers are asked too and a slope that is not finite counts. */
uint8_t domthelv_vrq_energies_slopes(size_t count, const double *m, size_t m_len, const double *sheets, size_t sheets_len,
    const uint8_t *orders, size_t orders_len, double temperature, double temperature_slope, const double *fractions,
    size_t fractions_len, const double *fraction_slopes, size_t fraction_slopes_len, const double *densities,
    size_t densities_len, const double *density_slopes, size_t density_slopes_len, bool non_additive, double *out,
    size_t out_len);

/* A pair's diameter from its searched radii. 1: the count, a list of the set or an index; 4: an order; 2: temperature;
 * 6; 7: the diameter is not finite. */
uint8_t domthelv_vrq_diameter(size_t count, const double *m, size_t m_len, const double *sheets, size_t sheets_len,
    const uint8_t *orders, size_t orders_len, size_t i, size_t j, double temperature, double sigma_eff, double r0,
    double *out);

/* Two ends of the same. out (2): low and high end. Refusals as above, with out's length among those for 1; then 8. */
uint8_t domthelv_vrq_diameter_ends(size_t count, const double *m, size_t m_len, const double *sheets, size_t sheets_len,
    const uint8_t *orders, size_t orders_len, size_t i, size_t j, double temperature, double sigma_eff, double r0,
    double *out, size_t out_len);

/* From component lists to energies, with a table of its own. out as above. 1: out; then the first refusal of the
 * parameters (1 to 6), the table (2, 6, 7) and the energies (1, 2, 6, 7). */
uint8_t domthelv_vrq_stage(size_t count, const double *m, size_t m_len, const double *sigma, size_t sigma_len,
    const double *epsilon_k, size_t epsilon_k_len, const double *lr, size_t lr_len, const double *la, size_t la_len,
    const double *mass, size_t mass_len, const uint8_t *order, size_t order_len, const double *k_ij, size_t k_ij_len,
    const double *l_ij, size_t l_ij_len, double temperature, const double *fractions, size_t fractions_len,
    const double *densities, size_t densities_len, bool non_additive, double *out, size_t out_len);

/* SAFT-VR Mie. */

/* Parameters. 1: the count or a list's length; 2: a number outside its limit; 6. */
uint8_t domthelv_vr_parameters(size_t count, const double *m, size_t m_len, const double *sigma, size_t sigma_len,
    const double *epsilon_k, size_t epsilon_k_len, const double *lr, size_t lr_len, const double *la, size_t la_len,
    const double *k_ij, size_t k_ij_len, const double *gamma_ij, size_t gamma_ij_len, double *set_lists,
    size_t set_lists_len, double *set_sheets, size_t set_sheets_len);

/* The components' diameters, a list as long as the count. 1: the count, a list of the set or diameters;
 * 2: temperature; 6; 7: a diameter is not finite. */
uint8_t domthelv_vr_diameters(size_t count, const double *lists, size_t lists_len, const double *sheets,
    size_t sheets_len, double temperature, double *diameters, size_t diameters_len);

/* Dispersion, with the chain where it is wanted, from diameters. 1: the count, a list of the set, fractions, densities
 * or diameters; 2: temperature, a fraction or a density; 6; 7: the energy is not finite. */
uint8_t domthelv_vr_dispersion(size_t count, const double *lists, size_t lists_len, const double *sheets,
    size_t sheets_len, double temperature, const double *fractions, size_t fractions_len, const double *densities,
    size_t densities_len, const double *diameters, size_t diameters_len, bool chain, double *out);

/* One pair's reduced r0, the lower limit of its diameter's integral. 1: the count, a list of the set or an index;
 * 2: temperature; 6. */
uint8_t domthelv_vr_radius(size_t count, const double *lists, size_t lists_len, const double *sheets,
    size_t sheets_len, size_t i, size_t j, double temperature, double *out);

/* Two ends of dispersion, with the chain where it is wanted: low and high end. 1: out too; else as
 * domthelv_vr_dispersion, then 8. */
uint8_t domthelv_vr_dispersion_ends(size_t count, const double *lists, size_t lists_len, const double *sheets,
    size_t sheets_len, double temperature, const double *fractions, size_t fractions_len, const double *densities,
    size_t densities_len, const double *diameters, size_t diameters_len, bool chain, double *out, size_t out_len);

/* One pair's diameter from its reduced r0. 1: the count, a list of the set or an index; 2: temperature; 6;
 * 7: the diameter is not finite. */
uint8_t domthelv_vr_diameter(size_t count, const double *lists, size_t lists_len, const double *sheets,
    size_t sheets_len, size_t i, size_t j, double temperature, double r0, double *out);

/* Two ends of the same: low and high end. 1: out too; else as above, then 8. */
uint8_t domthelv_vr_diameter_ends(size_t count, const double *lists, size_t lists_len, const double *sheets,
    size_t sheets_len, size_t i, size_t j, double temperature, double r0, double *out, size_t out_len);

/* From component lists to dispersion, with the chain where it is wanted, and diameters of its own. The first refusal of
 * the parameters (1, 2, 6), the diameters (2, 6, 7) and the energy (1, 2, 6, 7). */
uint8_t domthelv_vr_stage(size_t count, const double *m, size_t m_len, const double *sigma, size_t sigma_len,
    const double *epsilon_k, size_t epsilon_k_len, const double *lr, size_t lr_len, const double *la, size_t la_len,
    const double *k_ij, size_t k_ij_len, const double *gamma_ij, size_t gamma_ij_len, double temperature,
    const double *fractions, size_t fractions_len, const double *densities, size_t densities_len, bool chain,
    double *out);

/* The fuel card: bits, most significant first. Two bits of model (0 quantum, 1 SAFT-VR Mie), four bits of count, 1 to
 * DOMTHELV_CARD_SIDE; for each component sigma, epsilon_k, lr, la, mass as 64-bit floats and a 2-bit order, or of SAFT-VR Mie
 * m, sigma, epsilon_k, lr, la; for each pair i < j, row by row, two 64-bit floats, k_ij and l_ij, or k_ij and gamma_ij. Zero
 * bits fill the last byte. Of the quantum model m is 1. */

/* From a card to the parameters of its model: *model, *count and the set, a quantum one in set_m, set_sheets, set_orders, one
 * of SAFT-VR Mie in set_lists, set_sheets; lists of the other model keep their bits. 1: the length of any of the four lists;
 * 9: the card ends before the field in hand; 10: the model or the count, once both are in; 11: after all else on the card;
 * then as domthelv_vrq_parameters (2, 3, 4, 5, 6) or domthelv_vr_parameters (2, 6). */
uint8_t domthelv_card_parameters(const uint8_t *card, size_t card_len, uint8_t *model, size_t *count, double *set_m,
    size_t set_m_len, double *set_lists, size_t set_lists_len, double *set_sheets, size_t set_sheets_len,
    uint8_t *set_orders, size_t set_orders_len);

/* A card from component lists: the first *length bytes of card, and what lies behind them keeps its bits. A list of DOMTHELV_CARD
 * bytes holds every card. 1 to 5 of the component lists as domthelv_vrq_parameters (6 is not asked); 10: more than
 * DOMTHELV_CARD_SIDE components; 12: card is too short. */
uint8_t domthelv_vrq_card(size_t count, const double *m, size_t m_len, const double *sigma, size_t sigma_len,
    const double *epsilon_k, size_t epsilon_k_len, const double *lr, size_t lr_len, const double *la, size_t la_len,
    const double *mass, size_t mass_len, const uint8_t *order, size_t order_len, const double *k_ij, size_t k_ij_len,
    const double *l_ij, size_t l_ij_len, uint8_t *card, size_t card_len, size_t *length);

/* The same of SAFT-VR Mie: 1 and 2 as domthelv_vr_parameters; 10; 12. */
uint8_t domthelv_vr_card(size_t count, const double *m, size_t m_len, const double *sigma, size_t sigma_len,
    const double *epsilon_k, size_t epsilon_k_len, const double *lr, size_t lr_len, const double *la, size_t la_len,
    const double *k_ij, size_t k_ij_len, const double *gamma_ij, size_t gamma_ij_len, uint8_t *card, size_t card_len,
    size_t *length);

/* The newer card: model 2 (quantum) or 3 (SAFT-VR Mie), a count of 1 to DOMTHELV_SIDE, the same components, and before each of a
 * pair's two numbers one bit: 0 for +0, which is then not stored, 1 for a stored number. -0 is stored. */

/* As domthelv_card_parameters of a newer card; *model is 0 or 1 as there. 15: a stored +0, where it is met among the fields. */
uint8_t domthelv_newer_card_parameters(const uint8_t *card, size_t card_len, uint8_t *model, size_t *count, double *set_m,
    size_t set_m_len, double *set_lists, size_t set_lists_len, double *set_sheets, size_t set_sheets_len,
    uint8_t *set_orders, size_t set_orders_len);

/* A card moved to the newer form, which reads as lists of the same bits: the first *length bytes of newer, and what lies behind them
 * keeps its bits. A list of DOMTHELV_NEWER_CARD bytes holds every card. 9, 10, 11 of the card; 12: newer is too short. */
uint8_t domthelv_card_to_newer(const uint8_t *card, size_t card_len, uint8_t *newer, size_t newer_len, size_t *length);

/* A newer card moved back, likewise. 9, 10, 15, 11 of the card; 16: more than DOMTHELV_CARD_SIDE components; 12: older is too
 * short. */
uint8_t domthelv_card_to_older(const uint8_t *card, size_t card_len, uint8_t *older, size_t older_len, size_t *length);

/* One desk for all pages: DOMTHELV_DESK_PLACES places for quantum queries, in two lists that the caller lends to each call, of
 * DOMTHELV_DESK_FLOATS floats and DOMTHELV_DESK_BYTES bytes. What is said below is of a desk that was begun and then handled
 * by these calls alone; with any other bits in the lists a call still ends and touches nothing outside. */

/* A desk with no query. 1: a list's length. */
uint8_t domthelv_desk_begin(double *floats, size_t floats_len, uint8_t *bytes, size_t bytes_len);

/* A query comes to the desk and takes the lowest free place, which *place tells. Set and state are copied, and need not
 * stay. 1: a list of the desk, the count, a list of the set, fractions or densities; 4: an order; 2: temperature, a
 * fraction or a density not 0 to 1; 17: all places are occupied. */
uint8_t domthelv_desk_submit(double *floats, size_t floats_len, uint8_t *bytes, size_t bytes_len, size_t count,
    const double *m, size_t m_len, const double *sheets, size_t sheets_len, const uint8_t *orders, size_t orders_len,
    double temperature, const double *fractions, size_t fractions_len, const double *densities, size_t densities_len,
    bool non_additive, size_t *place);

/* One unit, a pair of the temperature table, for the query in the next occupied place above the one served last, after
 * the last place again from 0. *outcome: 0 where no query was waiting, and the desk is as it was; 1 where a unit was done;
 * 2 where the query in *place is finished and its place free: *number is then 0, with its energies in out (3), or the 6 or
 * 7 of domthelv_vrq_table or domthelv_vrq_energies. What is not told keeps its bits. A query of n components is finished
 * within 16 n^2 calls. 1: a list of the desk, out. */
uint8_t domthelv_desk_serve(double *floats, size_t floats_len, uint8_t *bytes, size_t bytes_len, uint8_t *outcome,
    size_t *place, uint8_t *number, double *out, size_t out_len);

#ifdef __cplusplus
}
#endif

#endif
