/* Measures the stack that a call takes: paints what lies below, calls, and looks how deep the paint is gone. A line for each function,
 * its name, the number that it gave and the bytes; at one state of twelve components, so that a longer way may take more. */
#include <domthelv.h>
#include <stdio.h>

enum { N = DOMTHELV_SIDE, PAINTED = 3 * DOMTHELV_STACK / 2, PAINT = 0xA5 };

static double m[DOMTHELV_M], sheets[DOMTHELV_SHEETS], table[DOMTHELV_TABLE], lists[DOMTHELV_LISTS], mie_sheets[DOMTHELV_SHEETS], diameters[N];
static double one[N], sigma[N], epsilon_k[N], lr[N], la[N], mass[N], none[N * N], fractions[N], densities[N], out[8];
static uint8_t order[N], orders[DOMTHELV_ORDERS], counts[DOMTHELV_COUNTS];
static uint64_t wholes[3];
static uint8_t card[DOMTHELV_CARD], newer[DOMTHELV_NEWER_CARD], model;
static size_t length, newer_length, count;
static volatile unsigned char *volatile painted;

static __attribute__((noinline)) void paint(void) {
    volatile unsigned char room[PAINTED];
    for (int k = 0; k < PAINTED; k++) room[k] = PAINT;
    painted = room;
}

static __attribute__((noinline)) void tell(const char *name, int number) {
    int k = 0;
    while (k < PAINTED && painted[k] == PAINT) k++;
    printf("%s %d %d\n", name, number, PAINTED - k);
}

/* The call's arguments are known before the paint, so that nothing but the call lies between. */
#define CALL(name, ...) do { paint(); int number = domthelv_##name(__VA_ARGS__); tell("domthelv_" #name, number); } while (0)
#define SET N, m, DOMTHELV_M, sheets, DOMTHELV_SHEETS, orders, DOMTHELV_ORDERS
#define MIE N, lists, DOMTHELV_LISTS, mie_sheets, DOMTHELV_SHEETS
#define READ &model, &count, m, DOMTHELV_M, lists, DOMTHELV_LISTS, sheets, DOMTHELV_SHEETS, orders, DOMTHELV_ORDERS
#define STATE 200.0, fractions, N, densities, N

int main(void) {
    for (int k = 0; k < N; k++) {
        one[k] = 1.0, sigma[k] = 3.0 + 0.01 * k, epsilon_k[k] = 30.0 + k, lr[k] = 12.0 + 0.1 * k, la[k] = 6.0, mass[k] = 1e-26;
        order[k] = 1, fractions[k] = 1.0 / N, densities[k] = 0.0005;
    }
    CALL(sqrt, 2.0, out);
    CALL(ln, 2.0, out);
    CALL(ln_1p, 2.0, out);
    CALL(exp, 2.0, out);
    CALL(exp_m1, 2.0, out);
    CALL(tanh, 2.0, out);
    CALL(powf, 2.0, 3.5, out);
    CALL(vrq_record_m, 1.0);
    CALL(order_counts, N, wholes, 3);
    CALL(vrq_parameters, N, one, N, sigma, N, epsilon_k, N, lr, N, la, N, mass, N, order, N, none, N * N, none, N * N, m, DOMTHELV_M, sheets,
        DOMTHELV_SHEETS, orders, DOMTHELV_ORDERS);
    CALL(vrq_table, SET, 200.0, table, DOMTHELV_TABLE, counts, DOMTHELV_COUNTS);
    CALL(vrq_radii, SET, 0, 1, 200.0, out, 6, counts, 3);
    CALL(vrq_energies, SET, STATE, table, DOMTHELV_TABLE, true, out, 3);
    CALL(vrq_total, SET, STATE, table, DOMTHELV_TABLE, true, out, 4);
    CALL(vrq_energies_ends, SET, STATE, table, DOMTHELV_TABLE, true, out, 6);
    CALL(vrq_diameter, SET, 0, 1, 200.0, 3.0, 2.5, out);
    CALL(vrq_diameter_ends, SET, 0, 1, 200.0, 3.0, 2.5, out, 2);
    CALL(vrq_stage, N, one, N, sigma, N, epsilon_k, N, lr, N, la, N, mass, N, order, N, none, N * N, none, N * N, STATE, true, out, 3);
    CALL(vr_parameters, N, one, N, sigma, N, epsilon_k, N, lr, N, la, N, none, N * N, none, N * N, lists, DOMTHELV_LISTS, mie_sheets, DOMTHELV_SHEETS);
    CALL(vr_diameters, MIE, 200.0, diameters, N);
    CALL(vr_dispersion, MIE, STATE, diameters, N, true, out);
    CALL(vr_radius, MIE, 0, 1, 200.0, out);
    CALL(vr_dispersion_ends, MIE, STATE, diameters, N, true, out, 2);
    CALL(vr_diameter, MIE, 0, 1, 200.0, 0.9, out);
    CALL(vr_diameter_ends, MIE, 0, 1, 200.0, 0.9, out, 2);
    CALL(vr_stage, N, one, N, sigma, N, epsilon_k, N, lr, N, la, N, none, N * N, none, N * N, STATE, true, out);
    CALL(vr_card, 8, one, 8, sigma, 8, epsilon_k, 8, lr, 8, la, 8, none, 64, none, 64, card, DOMTHELV_CARD, &length);
    CALL(vrq_card, 8, one, 8, sigma, 8, epsilon_k, 8, lr, 8, la, 8, mass, 8, order, 8, none, 64, none, 64, card, DOMTHELV_CARD, &length);
    CALL(card_to_newer, card, length, newer, DOMTHELV_NEWER_CARD, &newer_length);
    CALL(card_to_older, newer, newer_length, card, DOMTHELV_CARD, &length);
    CALL(card_parameters, card, length, READ);
    CALL(newer_card_parameters, newer, newer_length, READ);
    return 0;
}
