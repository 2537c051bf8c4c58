/* Pressure, chemical potential and internal energy of liquid hydrogen at 25 K from the slopes of the energies, beside difference
 * quotients of the energies. With a, the energies' sum: the pressure over kT is density + density * slope - a, the residual chemical
 * potential over kT the slope, both by the density; the residual internal energy over kT is -temperature * slope by the temperature,
 * over the density. The parameters are those of the worked case 'hydrogen', as in hydrogen.c; no phase was worked. */
#include <domthelv.h>
#include <stdio.h>

static double m[DOMTHELV_M], sheets[DOMTHELV_SHEETS], table[DOMTHELV_TABLE], out[DOMTHELV_ENERGIES], sloped[DOMTHELV_ENERGIES_SLOPES];
static uint8_t orders[DOMTHELV_ORDERS], counts[DOMTHELV_COUNTS];
static const double one = 1.0, zero = 0.0;

/* Hard sphere and dispersion at a temperature and a density; the first refusal is kept. */
static double energy(double temperature, double density, uint8_t *refused) {
    if (!*refused) *refused = domthelv_vrq_table(1, m, DOMTHELV_M, sheets, DOMTHELV_SHEETS, orders, DOMTHELV_ORDERS, temperature, table,
        DOMTHELV_TABLE, counts, DOMTHELV_COUNTS);
    if (!*refused) *refused = domthelv_vrq_energies(1, m, DOMTHELV_M, sheets, DOMTHELV_SHEETS, orders, DOMTHELV_ORDERS, temperature, &one,
        1, &density, 1, table, DOMTHELV_TABLE, false, out, DOMTHELV_ENERGIES);
    return out[0] + out[1];
}

/* The same from the call with slopes; *slope is the sum's. */
static double with_slope(double temperature, double dt, double density, double dd, double *slope, uint8_t *refused) {
    if (!*refused) *refused = domthelv_vrq_energies_slopes(1, m, DOMTHELV_M, sheets, DOMTHELV_SHEETS, orders, DOMTHELV_ORDERS, temperature,
        dt, &one, 1, &zero, 1, &density, 1, &dd, 1, false, sloped, DOMTHELV_ENERGIES_SLOPES);
    *slope = sloped[1] + sloped[3];
    return sloped[0] + sloped[2];
}

int main(void) {
    const double sigma = 3.0243, epsilon_k = 26.706, lr = 9.0, la = 6.0, mass = 3.3474472e-27, temperature = 25.0, density = 0.02;
    const double h = 1e-5, bar = 1.380649e-23 * temperature * 1e30 / 1e5; /* k T per cubic angstrom, in bar */
    const uint8_t order = 1;
    double by_density, by_temperature, a, quotient, other;
    uint8_t refused = domthelv_vrq_parameters(1, &one, 1, &sigma, 1, &epsilon_k, 1, &lr, 1, &la, 1, &mass, 1, &order, 1,
        &zero, 1, &zero, 1, m, DOMTHELV_M, sheets, DOMTHELV_SHEETS, orders, DOMTHELV_ORDERS);
    a = with_slope(temperature, 0.0, density, 1.0, &by_density, &refused);
    with_slope(temperature, 1.0, density, 0.0, &by_temperature, &refused);
    quotient = (energy(temperature, density * (1.0 + h), &refused) - energy(temperature, density * (1.0 - h), &refused)) / (2.0 * h * density);
    other = (energy(temperature * (1.0 + h), density, &refused) - energy(temperature * (1.0 - h), density, &refused)) / (2.0 * h * temperature);
    if (refused != DOMTHELV_ACCEPTED) return printf("refused: %d\n", refused), 1;
    printf("hydrogen at %g K, %g molecules per cubic angstrom: by slopes, and by difference quotients\n", temperature, density);
    printf("pressure            %12.6f bar, %12.6f\n", bar * (density + density * by_density - a), bar * (density + density * quotient - a));
    printf("chemical potential  %12.8f kT,  %12.8f\n", by_density, quotient);
    printf("internal energy     %12.8f kT,  %12.8f\n", -temperature * by_temperature / density, -temperature * other / density);
    return 0;
}
