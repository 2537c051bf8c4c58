// A mixture of neon and hydrogen at 30 K, equal parts: energies per cubic angstrom with their band, the two ends that enclose each.
// The parameters are those of the worked case 'hydrogen and neon' (first Feynman-Hibbs order), which no table of the literature was
// held to: for a plotter take those of a source. Nothing is allocated.
#include <cstdio>
#include <domthelv.hpp>

static domthelv::quantum_set mixture; // 7 KB
static domthelv::table table;         // 5 KB

static int refused(const char *what, domthelv::refusal why) {
    std::printf("%s: refused (%d): %s\n", what, static_cast<int>(why), domthelv::text(why));
    return 1;
}

static void line(const char *name, double value, domthelv::ends band) {
    std::printf("%-13s %.17g, from %.17g to %.17g, %.1e wide\n", name, value, band.low, band.high, band.high - band.low);
}

int main() {
    // neon, hydrogen
    const double m[] = {1.0, 1.0}, sigma[] = {2.7778, 3.0243}, epsilon_k[] = {37.501, 26.706}, lr[] = {13.0, 9.0}, la[] = {6.0, 6.0};
    const double mass[] = {3.35092e-26, 3.3474472e-27}, none[] = {0.0, 0.0, 0.0, 0.0};
    const std::uint8_t order[] = {1, 1};
    const double fractions[] = {0.5, 0.5}, densities[] = {0.01, 0.01};
    const domthelv::quantum_components components = {m, sigma, epsilon_k, lr, la, mass, order, none, none};
    const domthelv::state state = {30.0, fractions, densities};

    auto why = mixture.assign(components);
    if (why != domthelv::refusal::accepted) return refused("parameters", why);
    why = table.work(mixture, state.temperature);
    if (why != domthelv::refusal::accepted) return refused("table", why);
    const auto energies = mixture.energies(state, table, true);
    if (!energies.accepted()) return refused("energies", energies.refused());
    const auto band = mixture.energies_ends(state, table, true);
    if (!band.accepted()) return refused("two ends", band.refused());

    std::printf("neon and hydrogen at %g K, %g molecules of each per cubic angstrom\n", state.temperature, densities[0]);
    std::printf("hard-sphere diameters %.6f, %.6f and, of the unlike pair, %.6f angstrom\n", table.hs_diameter(0, 0).value(),
        table.hs_diameter(1, 1).value(), table.hs_diameter(0, 1).value());
    line("hard sphere", energies.value().hard_sphere, band.value().hard_sphere);
    line("dispersion", energies.value().dispersion, band.value().dispersion);
    line("non-additive", energies.value().non_additive, band.value().non_additive);
    return 0;
}
