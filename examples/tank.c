/* A tank of liquid hydrogen at rest in three layers, colder at the bottom: its energies in kelvin and their two ends. The parameters
 * are those of the worked case 'hydrogen', as in hydrogen.c; temperatures and densities are for the look of it, no phase was worked. */
#include <domthelv.h>
#include <stdio.h>

enum { LAYERS = 3 };

static double m[DOMTHELV_M], sheets[DOMTHELV_SHEETS], out[DOMTHELV_ENERGIES], ends[DOMTHELV_ENERGIES_ENDS];
static uint8_t orders[DOMTHELV_ORDERS];

int main(void) {
    const double one = 1.0, sigma = 3.0243, epsilon_k = 26.706, lr = 9.0, la = 6.0, mass = 3.3474472e-27, zero = 0.0;
    /* from the bottom up; a quarter of a cubic metre each */
    const double temperatures[LAYERS] = {20.0, 22.0, 25.0}, fractions[LAYERS] = {1.0, 1.0, 1.0};
    const double densities[LAYERS] = {0.021, 0.0205, 0.019}, volumes[LAYERS] = {2.5e29, 2.5e29, 2.5e29};
    const uint8_t order = 1;
    uint8_t refused = domthelv_vrq_parameters(1, &one, 1, &sigma, 1, &epsilon_k, 1, &lr, 1, &la, 1, &mass, 1, &order, 1,
        &zero, 1, &zero, 1, m, DOMTHELV_M, sheets, DOMTHELV_SHEETS, orders, DOMTHELV_ORDERS);
    if (!refused) refused = domthelv_vrq_tank(1, m, DOMTHELV_M, sheets, DOMTHELV_SHEETS, orders, DOMTHELV_ORDERS, LAYERS, temperatures,
        LAYERS, fractions, LAYERS, densities, LAYERS, volumes, LAYERS, false, out, DOMTHELV_ENERGIES);
    if (!refused) refused = domthelv_vrq_tank_ends(1, m, DOMTHELV_M, sheets, DOMTHELV_SHEETS, orders, DOMTHELV_ORDERS, LAYERS, temperatures,
        LAYERS, fractions, LAYERS, densities, LAYERS, volumes, LAYERS, false, ends, DOMTHELV_ENERGIES_ENDS);
    if (refused != DOMTHELV_ACCEPTED) return printf("refused: %d\n", refused), 1;
    printf("a tank of hydrogen in %d layers, from %g to %g K\n", LAYERS, temperatures[0], temperatures[LAYERS - 1]);
    printf("hard sphere %.17g, from %.17g to %.17g\n", out[0], ends[0], ends[1]);
    printf("dispersion  %.17g, from %.17g to %.17g\n", out[1], ends[2], ends[3]);
    return 0;
}
