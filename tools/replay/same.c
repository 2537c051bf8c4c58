/* Makes calls with pseudo-random arguments, usual and odd ones and arbitrary bits, and writes a line for each kind of call: how many, how
 * many were accepted, and a hash of all that they gave. The lines are the same on every processor that works the library's digits:
 * same.txt beside it has them. same [ROUNDS]: other rounds than the 1000 of same.txt. */
#include <domthelv.h>
#include <stdio.h>
#include <stdlib.h>
#include <string.h>

enum { N = DOMTHELV_SIDE, KINDS = 10 };
static const char *const NAMES[KINDS] = {"elementary functions", "quantum parameters", "quantum tables", "quantum energies and total",
    "quantum energies' ends", "quantum radii and diameters", "quantum stages", "Mie parameters and diameters", "Mie dispersion and its ends",
    "Mie radii, diameters and stages"};
static unsigned long calls[KINDS], accepted[KINDS];
static uint64_t hashes[KINDS], seed = 38;

static double m[DOMTHELV_M], sheets[DOMTHELV_SHEETS], table[DOMTHELV_TABLE], lists[DOMTHELV_LISTS], mie_sheets[DOMTHELV_SHEETS], diameters[N];
static double ones[N], segments[N], sigma[N], epsilon_k[N], lr[N], la[N], mass[N], k_ij[N * N], l_ij[N * N], fractions[N], densities[N];
static uint8_t order[N], orders[DOMTHELV_ORDERS], counts[DOMTHELV_COUNTS];

/* ---- numbers */

static uint64_t word(void) {
    uint64_t z = seed += 0x9e3779b97f4a7c15u;
    z = (z ^ z >> 30) * 0xbf58476d1ce4e5b9u;
    z = (z ^ z >> 27) * 0x94d049bb133111ebu;
    return z ^ z >> 31;
}

static double of_bits(uint64_t n) {
    double x;
    memcpy(&x, &n, sizeof x);
    return x;
}

/* Product and sum are rounded apart, whatever the compiler joins elsewhere. */
static double between(double low, double high) {
    volatile double product = (high - low) * ((double)(word() >> 11) * 0x1p-53);
    return low + product;
}

static bool one_in(uint64_t n) { return word() % n == 0; }

/* A number within limits; now and then an end, or arbitrary bits. */
static double within(double low, double high) {
    return !one_in(60) ? between(low, high) : one_in(2) ? low : one_in(2) ? high : of_bits(word());
}

/* ---- what was given */

static void put(int kind, uint64_t w) {
    for (int i = 0; i < 8; i++) hashes[kind] = (hashes[kind] ^ (w >> 8 * i & 255)) * 0x100000001b3u;
}

static void put_floats(int kind, const double *l, size_t n) {
    for (size_t k = 0; k < n; k++) {
        uint64_t bits;
        memcpy(&bits, &l[k], sizeof bits);
        put(kind, l[k] == l[k] ? bits : 0x7ff8000000000000u);
    }
}

/* A call's number and the floats that were lent; those of a refused call too, which must be as they were. */
static uint8_t told(int kind, uint8_t number, const double *out, size_t n) {
    calls[kind]++, accepted[kind] += number == 0;
    put(kind, number), put_floats(kind, out, n);
    return number;
}

/* ---- calls */

static void elementary(void) {
    uint8_t (*const functions[])(double, double *) = {domthelv_sqrt, domthelv_ln, domthelv_ln_1p, domthelv_exp, domthelv_exp_m1, domthelv_tanh};
    for (int k = 0; k < 6; k++) {
        double out = 7.0, x = one_in(4) ? of_bits(word()) : between(k < 3 ? 0.0 : -350.0, 350.0);
        told(0, functions[k](x, &out), &out, 1);
    }
    double out = 7.0, x = within(0.03125, 32.0), y = within(-192.0, 192.0);
    told(0, domthelv_powf(x, y, &out), &out, 1);
    out = domthelv_powi(x, (int32_t)(word() % 81) - 40);
    told(0, 0, &out, 1);
}

static size_t components(void) {
    size_t n = one_in(12) ? 1 + word() % N : 1 + word() % 3;
    uint8_t high = one_in(2) ? 1 : 2;
    memset(k_ij, 0, sizeof k_ij), memset(l_ij, 0, sizeof l_ij);
    for (size_t i = 0; i < n; i++) {
        ones[i] = 1.0, segments[i] = within(0.5, 4.0), sigma[i] = within(2.5, 4.5), epsilon_k[i] = within(5.0, 300.0);
        lr[i] = within(8.0, 20.0), la[i] = one_in(3) ? within(3.5, 7.0) : 6.0, mass[i] = within(1e-27, 1e-25), order[i] = one_in(2) ? high : 0;
        fractions[i] = within(0.0, 1.0), densities[i] = within(0.0, 0.02 / (double)n);
        for (size_t j = 0; j < i; j++) {
            k_ij[n * i + j] = k_ij[n * j + i] = between(-0.1, 0.1);
            l_ij[n * i + j] = l_ij[n * j + i] = between(-0.05, 0.05);
        }
    }
    if (one_in(20)) order[0] = (uint8_t)word();
    return n;
}

#define SET n, m, DOMTHELV_M, sheets, DOMTHELV_SHEETS, orders, DOMTHELV_ORDERS
#define MIE n, lists, DOMTHELV_LISTS, mie_sheets, DOMTHELV_SHEETS

static void quantum(size_t n, double t) {
    double out[8] = {7, 7, 7, 7, 7, 7, 7, 7};
    uint8_t spent[3] = {7, 7, 7};
    size_t i = word() % n, j = word() % n;
    bool wanted = one_in(2);
    uint8_t number = domthelv_vrq_stage(n, ones, n, sigma, n, epsilon_k, n, lr, n, la, n, mass, n, order, n, k_ij, n * n, l_ij, n * n, t, fractions,
        n, densities, n, wanted, out, 3);
    told(6, number, out, 3);
    number = domthelv_vrq_parameters(n, ones, n, sigma, n, epsilon_k, n, lr, n, la, n, mass, n, order, n, k_ij, n * n, l_ij, n * n, m, DOMTHELV_M,
        sheets, DOMTHELV_SHEETS, orders, DOMTHELV_ORDERS);
    if (told(1, number, sheets, DOMTHELV_SHEETS)) return;
    number = told(2, domthelv_vrq_table(SET, t, table, DOMTHELV_TABLE, counts, DOMTHELV_COUNTS), table, DOMTHELV_TABLE);
    for (size_t k = 0; k < DOMTHELV_COUNTS; k++) put(2, counts[k]);
    if (one_in(10)) table[word() % DOMTHELV_TABLE] = of_bits(word());
    told(3, domthelv_vrq_energies(SET, t, fractions, n, densities, n, table, DOMTHELV_TABLE, wanted, out, 3), out, 3);
    told(3, domthelv_vrq_total(SET, t, fractions, n, densities, n, table, DOMTHELV_TABLE, wanted, out, 4), out, 4);
    told(4, domthelv_vrq_energies_ends(SET, t, fractions, n, densities, n, table, DOMTHELV_TABLE, wanted, out, 6), out, 6);
    told(5, domthelv_vrq_radii(SET, i, j, t, out, 6, spent, 3), out, 6);
    put(5, spent[0]), put(5, spent[1]), put(5, spent[2]);
    double r0 = out[2], radius = out[0];
    told(5, domthelv_vrq_diameter(SET, i, j, t, radius, r0, out), out, 1);
    told(5, domthelv_vrq_diameter_ends(SET, i, j, t, radius, r0, out, 2), out, 2);
}

static void mie(size_t n, double t) {
    double out[2] = {7, 7}, r0 = 0.9;
    size_t i = word() % n, j = word() % n;
    bool chain = one_in(2);
    uint8_t number = domthelv_vr_stage(n, segments, n, sigma, n, epsilon_k, n, lr, n, la, n, k_ij, n * n, l_ij, n * n, t, fractions, n, densities, n,
        chain, out);
    told(9, number, out, 1);
    number = domthelv_vr_parameters(n, segments, n, sigma, n, epsilon_k, n, lr, n, la, n, k_ij, n * n, l_ij, n * n, lists, DOMTHELV_LISTS,
        mie_sheets, DOMTHELV_SHEETS);
    put_floats(7, lists, DOMTHELV_LISTS);
    if (told(7, number, mie_sheets, DOMTHELV_SHEETS)) return;
    told(7, domthelv_vr_diameters(MIE, t, diameters, n), diameters, n);
    if (one_in(10)) diameters[word() % n] = of_bits(word());
    told(8, domthelv_vr_dispersion(MIE, t, fractions, n, densities, n, diameters, n, chain, out), out, 1);
    told(8, domthelv_vr_dispersion_ends(MIE, t, fractions, n, densities, n, diameters, n, chain, out, 2), out, 2);
    told(9, domthelv_vr_radius(MIE, i, j, t, &r0), &r0, 1);
    told(9, domthelv_vr_diameter(MIE, i, j, t, r0, out), out, 1);
    told(9, domthelv_vr_diameter_ends(MIE, i, j, t, r0, out, 2), out, 2);
}

int main(int argc, char **argv) {
    unsigned long rounds = argc > 1 ? strtoul(argv[1], NULL, 10) : 1000;
    for (int k = 0; k < KINDS; k++) hashes[k] = 0xcbf29ce484222325u;
    for (unsigned long k = 0; k < rounds; k++) {
        for (int turn = 0; turn < 20; turn++) elementary();
        size_t n = components();
        quantum(n, within(15.0, 400.0));
        mie(n, within(80.0, 600.0));
    }
    for (int k = 0; k < KINDS; k++) printf("%-32s %6lu calls, %6lu accepted, %016llx\n", NAMES[k], calls[k], accepted[k], (unsigned long long)hashes[k]);
    return 0;
}
