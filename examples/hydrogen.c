/* Liquid hydrogen at 25 K: energies per cubic angstrom, and their two ends. The parameters are those of the worked case 'hydrogen' (first
 * Feynman-Hibbs order, after Aasen et al. 2019), which no table of the literature was held to: for a plotter take those of a source. */
#include <domthelv.h>
#include <stdio.h>

static double m[DOMTHELV_M], sheets[DOMTHELV_SHEETS], table[DOMTHELV_TABLE], out[DOMTHELV_ENERGIES], ends[DOMTHELV_ENERGIES_ENDS];
static uint8_t orders[DOMTHELV_ORDERS], counts[DOMTHELV_COUNTS];

int main(void) {
    const double one = 1.0, sigma = 3.0243, epsilon_k = 26.706, lr = 9.0, la = 6.0, mass = 3.3474472e-27, zero = 0.0;
    const double temperature = 25.0, density = 0.019;
    const uint8_t order = 1;
    uint8_t refused = domthelv_vrq_parameters(1, &one, 1, &sigma, 1, &epsilon_k, 1, &lr, 1, &la, 1, &mass, 1, &order, 1,
        &zero, 1, &zero, 1, m, DOMTHELV_M, sheets, DOMTHELV_SHEETS, orders, DOMTHELV_ORDERS);
    if (!refused) refused = domthelv_vrq_table(1, m, DOMTHELV_M, sheets, DOMTHELV_SHEETS, orders, DOMTHELV_ORDERS, temperature,
        table, DOMTHELV_TABLE, counts, DOMTHELV_COUNTS);
    if (!refused) refused = domthelv_vrq_energies(1, m, DOMTHELV_M, sheets, DOMTHELV_SHEETS, orders, DOMTHELV_ORDERS, temperature,
        &one, 1, &density, 1, table, DOMTHELV_TABLE, false, out, DOMTHELV_ENERGIES);
    if (!refused) refused = domthelv_vrq_energies_ends(1, m, DOMTHELV_M, sheets, DOMTHELV_SHEETS, orders, DOMTHELV_ORDERS,
        temperature, &one, 1, &density, 1, table, DOMTHELV_TABLE, false, ends, DOMTHELV_ENERGIES_ENDS);
    if (refused != DOMTHELV_ACCEPTED) return printf("refused: %d\n", refused), 1;
    printf("hydrogen at %g K, %g molecules per cubic angstrom, hard-sphere diameter %.6f angstrom\n", temperature, density,
        table[DOMTHELV_AT(DOMTHELV_TABLE_HS_DIAMETER, 0, 0)]);
    printf("hard sphere %.17g, from %.17g to %.17g\n", out[0], ends[0], ends[1]);
    printf("dispersion  %.17g, from %.17g to %.17g\n", out[1], ends[2], ends[3]);
    return 0;
}
