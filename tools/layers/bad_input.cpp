// Bad input at the C++ layer gets a refusal, and nothing outside a list is read or written: run with the sanitizers for addresses and
// undefined behaviour. Writes what fails, and at the end 'N passed, M failed'.
#include <array>
#include <cmath>
#include <cstdio>
#include <cstring>
#include <domthelv.hpp>
#include <memory>
#include <vector>

using namespace domthelv;

static int passed, failed;
static void holds(bool condition, const char *what, std::size_t k = 0) {
    if (!condition) std::printf("does not hold: %s (%zu)\n", what, k);
    (condition ? passed : failed)++;
}

static const double ones[] = {1.0, 1.0}, sigma[] = {2.7778, 3.0243}, epsilon_k[] = {37.501, 26.706}, lr[] = {13.0, 9.0}, la[] = {6.0, 6.0};
static const double mass[] = {3.35092e-26, 3.3474472e-27}, none[] = {0.0, 0.0, 0.0, 0.0}, half[] = {0.5, 0.5}, thin[] = {0.01, 0.01};
static const std::uint8_t order[] = {1, 1};
static const quantum_components right = {ones, sigma, epsilon_k, lr, la, mass, order, none, none};
static const mie_components mie_right = {ones, sigma, epsilon_k, lr, la, none, none};
static const state at30 = {30.0, half, thin};

// A list of so many elements that end where their memory ends.
static std::unique_ptr<double[]> heap(std::size_t n) {
    std::unique_ptr<double[]> l(new double[n]);
    for (std::size_t k = 0; k < n; k++) l[k] = 0.0;
    return l;
}

static bool same(const quantum_set &a, const quantum_set &b) { return std::memcmp(&a, &b, sizeof a) == 0; }

static void empty_objects() {
    const quantum_set set;
    const mie_set mie;
    table t;
    diameters d;
    holds(set.count() == 0 && t.count() == 0 && mie.count() == 0 && d.count() == 0, "objects begin empty");
    holds(t.work(set, 30.0) == refusal::length && t.count() == 0, "a table of an empty set");
    holds(d.work(mie, 200.0) == refusal::length && d.count() == 0, "diameters of an empty set");
    holds(set.energies(at30, t, true).refused() == refusal::length, "energies of an empty set");
    holds(set.radii(0, 0, 30.0).refused() == refusal::length, "radii of an empty set");
    holds(mie.dispersion(at30, d, true).refused() == refusal::length, "dispersion of an empty set");
    holds(mie.radius(0, 0, 200.0).refused() == refusal::length, "a radius of an empty set");
    const quantum_components nothing_at_all;
    quantum_set other;
    holds(other.assign(nothing_at_all) == refusal::length, "no components");
    holds(quantum_stage(nothing_at_all, at30, true).refused() == refusal::length, "a stage of no components");
    holds(mie_stage(mie_components(), at30, true).refused() == refusal::length, "a stage of no components, Mie");
}

// Each list of the components with each wrong length, and a null pointer with a length.
static void lengths() {
    quantum_set set, before;
    holds(set.assign(right) == refusal::accepted && set.count() == 2, "the components that are right");
    before = set;
    for (std::size_t n = 0; n <= 150; n++) {
        const auto l = heap(n);
        const floats spoiled(l.get(), n), null(nullptr, n);
        for (int which = 0; which < 8; which++) {
            for (int k = 0; k < 2; k++) {
                quantum_components c = right;
                floats *lists[] = {&c.m, &c.sigma, &c.epsilon_k, &c.lr, &c.la, &c.mass, &c.k_ij, &c.l_ij};
                if (n == (which < 6 ? 2u : 4u) && k == 0) continue;
                *lists[which] = k == 0 ? spoiled : null;
                // with another m the count is another, and so each other length is wrong; a count outside is refused too
                holds(set.assign(c) == refusal::length && same(set, before), "a list of a wrong length", n);
                holds(quantum_stage(c, at30, true).refused() == refusal::length, "a list of a wrong length, stage", n);
            }
        }
    }
    std::vector<std::uint8_t> orders(3, 1);
    quantum_components c = right;
    c.order = orders;
    holds(set.assign(c) == refusal::length && same(set, before), "three orders for two components");
    c.order = bytes(nullptr, 2);
    holds(set.assign(c) == refusal::length && same(set, before), "no orders");
}

static void mie_lengths() {
    mie_set set;
    holds(set.assign(mie_right) == refusal::accepted && set.count() == 2, "the components that are right, Mie");
    for (std::size_t n = 0; n <= 150; n++) {
        const auto l = heap(n);
        for (int which = 0; which < 7; which++) {
            mie_components c = mie_right;
            floats *lists[] = {&c.m, &c.sigma, &c.epsilon_k, &c.lr, &c.la, &c.k_ij, &c.gamma_ij};
            if (n == (which < 5 ? 2u : 4u)) continue;
            *lists[which] = floats(l.get(), n);
            holds(set.assign(c) == refusal::length && set.count() == 2, "a list of a wrong length, Mie", n);
        }
    }
}

static void states() {
    quantum_set set;
    mie_set mie;
    table t, empty;
    diameters d;
    holds(set.assign(right) == refusal::accepted && t.work(set, 30.0) == refusal::accepted, "a set and its table");
    holds(mie.assign(mie_right) == refusal::accepted && d.work(mie, 200.0) == refusal::accepted, "a set and its diameters");
    holds(set.energies(at30, t, true).accepted() && set.energies_ends(at30, t, true).accepted() && set.total(at30, t, true).accepted(), "a state");
    for (std::size_t n = 0; n <= 20; n++) {
        if (n == 2) continue;
        const auto l = heap(n);
        const state few = {30.0, floats(l.get(), n), thin}, more = {30.0, half, floats(l.get(), n)};
        for (const state &s : {few, more}) {
            holds(set.energies(s, t, true).refused() == refusal::length, "fractions or densities", n);
            holds(set.total(s, t, false).refused() == refusal::length, "fractions or densities, total", n);
            holds(set.energies_ends(s, t, true).refused() == refusal::length, "fractions or densities, ends", n);
            holds(mie.dispersion(s, d, true).refused() == refusal::length, "fractions or densities, Mie", n);
            holds(mie.dispersion_ends(s, d, true).refused() == refusal::length, "fractions or densities, Mie ends", n);
        }
    }
    holds(set.energies(at30, empty, true).refused() == refusal::length, "an empty table");
    const double one[] = {1.0}, s1[] = {3.0}, e1[] = {30.0}, r1[] = {12.0}, a1[] = {6.0}, m1[] = {1e-26}, zero[] = {0.0};
    const std::uint8_t o1[] = {1};
    quantum_set single;
    table other;
    holds(single.assign(quantum_components{one, s1, e1, r1, a1, m1, o1, zero, zero}) == refusal::accepted, "a single component");
    holds(other.work(single, 30.0) == refusal::accepted, "its table");
    holds(set.energies(at30, other, true).refused() == refusal::length, "a table of another count");
    const double nan = std::nan("");
    for (double bad : {nan, 0.5, 2001.0, -1.0, 1e308 * 10}) {
        const table kept = t;
        holds(t.work(set, bad) == refusal::limit && std::memcmp(&t, &kept, sizeof t) == 0, "a temperature outside");
        const state s = {bad, half, thin};
        holds(set.energies(s, t, true).refused() == refusal::limit, "a state's temperature outside");
        holds(d.work(mie, bad) == refusal::limit, "a temperature outside, Mie");
    }
    const auto refused = set.energies(state{nan, half, thin}, t, true);
    holds(std::isnan(refused.value().hard_sphere) && std::isnan(refused.value().dispersion) && std::isnan(refused.value().non_additive), "the value of a refused answer is NaN");
    holds(std::isnan(domthelv::sqrt(-1.0).value()) && domthelv::sqrt(-1.0).refused() == refusal::domain, "a root outside");
    holds(domthelv::sqrt(2.25).value() == 1.5 && domthelv::powi(2.0, 5) == 32.0 && domthelv::powf(33.0, 1.0).refused() == refusal::domain, "elementary functions");
}

static void indexes() {
    quantum_set set;
    mie_set mie;
    table t;
    diameters d;
    holds(set.assign(right) == refusal::accepted && t.work(set, 30.0) == refusal::accepted, "a set and its table");
    holds(mie.assign(mie_right) == refusal::accepted && d.work(mie, 200.0) == refusal::accepted, "a set and its diameters");
    const std::size_t outside[] = {2, 3, 11, 12, 13, 144, 1000000, static_cast<std::size_t>(-1), static_cast<std::size_t>(-12)};
    for (std::size_t k : outside) {
        for (int turn = 0; turn < 2; turn++) {
            const std::size_t i = turn ? 0 : k, j = turn ? k : 0;
            holds(t.hs_diameter(i, j).refused() == refusal::length && std::isnan(t.hs_diameter(i, j).value()), "an index of the table", k);
            holds(!t.sigma_eff(i, j).accepted() && !t.epsilon_k_eff(i, j).accepted() && !t.quantum_d(i, j).accepted(), "an index of the table", k);
            holds(!t.sigma_count(i, j).accepted() && !t.zero_count(i, j).accepted() && !t.depth_count(i, j).accepted(), "an index of the counts", k);
            holds(!set.sigma_ij(i, j).accepted() && !set.epsilon_k_ij(i, j).accepted() && !set.c_ij(i, j).accepted() && !set.order(i, j).accepted(), "an index of the set", k);
            holds(!set.lambda_r_ij(i, j).accepted() && !set.lambda_a_ij(i, j).accepted() && !set.mass_ij(i, j).accepted(), "an index of the set", k);
            holds(!mie.sigma_ij(i, j).accepted() && !mie.epsilon_k_ij(i, j).accepted() && !mie.lr_ij(i, j).accepted(), "an index of the Mie set", k);
            holds(!mie.la_ij(i, j).accepted() && !mie.c_ij(i, j).accepted() && !mie.alpha_ij(i, j).accepted(), "an index of the Mie set", k);
            holds(set.radii(i, j, 30.0).refused() == refusal::length && set.diameter(i, j, 30.0, 3.0, 2.5).refused() == refusal::length, "a pair of the set", k);
            holds(set.diameter_ends(i, j, 30.0, 3.0, 2.5).refused() == refusal::length && mie.diameter(i, j, 200.0, 0.8).refused() == refusal::length, "a pair", k);
            holds(mie.radius(i, j, 200.0).refused() == refusal::length && mie.diameter_ends(i, j, 200.0, 0.8).refused() == refusal::length, "a pair of the Mie set", k);
        }
        holds(!set.m(k).accepted() && !mie.m(k).accepted() && !mie.sigma(k).accepted() && !mie.epsilon_k(k).accepted(), "a component", k);
        holds(!mie.lr(k).accepted() && !mie.la(k).accepted() && !d.hs_diameter(k).accepted(), "a component", k);
    }
    const auto r = set.radii(0, 1, 30.0);
    holds(r.accepted() && r.value().sigma.radius == t.sigma_eff(0, 1).value() && r.value().sigma.count == t.sigma_count(0, 1).value(), "radii are the table's");
    holds(set.diameter(0, 1, 30.0, r.value().sigma.radius, r.value().zero.radius).value() == t.hs_diameter(0, 1).value(), "a diameter is the table's");
    holds(set.order(0, 1).value() == 1 && set.sigma_ij(0, 0).value() == 2.7778 && set.lambda_r_ij(1, 1).value() == 9.0 && set.mass_ij(0, 0).value() == 3.35092e-26, "entries of a set");
    holds(mie.lr(0).value() == 13.0 && mie.la_ij(1, 1).value() == 6.0 && mie.m(1).value() == 1.0, "entries of a Mie set");
    holds(count_orders(2).value().passing == 7 && count_orders(13).refused() == refusal::length && record_m(2.0) == refusal::segment_number, "orders and records");
}

// Components that lie in the set which is to be written.
static void within() {
    quantum_set set;
    mie_set mie;
    holds(set.assign(right) == refusal::accepted && mie.assign(mie_right) == refusal::accepted, "sets");
    const quantum_set before = set;
    const mie_set mie_before = mie;
    quantum_components c = right;
    c.m = floats(set.m_list().data(), 2);
    holds(set.assign(c) == refusal::length && same(set, before), "a list in the set");
    c = right, c.l_ij = floats(set.sheets().data() + 700, 4);
    holds(set.assign(c) == refusal::length && same(set, before), "a list in the set's sheets");
    c = right, c.order = bytes(set.orders().data() + 142, 2);
    holds(set.assign(c) == refusal::length && same(set, before), "orders in the set");
    c = right, c.m = floats(before.m_list().data(), 2);
    holds(set.assign(c) == refusal::accepted && same(set, before), "a list in another set");
    mie_components mc = mie_right;
    mc.sigma = floats(mie.lists().data() + 12, 2);
    holds(mie.assign(mc) == refusal::length && std::memcmp(&mie, &mie_before, sizeof mie) == 0, "a list in the Mie set");
}

// A desk: its turns, and what the door turns down.
static void desks() {
    quantum_set set, empty;
    table t;
    holds(set.assign(right) == refusal::accepted && t.work(set, 30.0) == refusal::accepted, "a set and its table");
    const std::unique_ptr<desk> pages(new desk);
    desk &d = *pages;
    holds(d.serve().what == outcome::idle && d.serve().place == DOMTHELV_DESK_PLACES && std::isnan(d.serve().value.dispersion), "a new desk is idle");
    holds(d.submit(empty, at30, true).refused() == refusal::length, "a query of an empty set");
    holds(d.submit(set, at30, true).value() == 0, "the lowest place");
    for (int k = 0; k < 3; k++) holds(d.serve().what == outcome::worked, "a unit", k);
    const served last = d.serve();
    const energies e = set.energies(at30, t, true).value();
    holds(last.what == outcome::finished && last.place == 0 && last.number == refusal::accepted, "a query is finished");
    holds(last.value.hard_sphere == e.hard_sphere && last.value.dispersion == e.dispersion && last.value.non_additive == e.non_additive, "with the energies");
    for (std::size_t k = 0; k < DOMTHELV_DESK_PLACES; k++) holds(d.submit(set, at30, false).value() == k, "sixteen places", k);
    for (std::size_t n = 0; n <= 20; n++) {
        if (n == 2) continue;
        const auto l = heap(n);
        holds(d.submit(set, state{30.0, floats(l.get(), n), thin}, true).refused() == refusal::length, "fractions at the desk", n);
        holds(d.submit(set, state{30.0, half, floats(l.get(), n)}, true).refused() == refusal::length, "densities at the desk", n);
        holds(d.submit(set, state{30.0, half, floats(nullptr, n)}, true).refused() == refusal::length, "no densities at the desk", n);
    }
    for (double bad : {std::nan(""), 0.5, 2001.0}) holds(d.submit(set, state{bad, half, thin}, true).refused() == refusal::limit, "a temperature outside at the desk");
    const auto seventeenth = d.submit(set, at30, true);
    holds(seventeenth.refused() == refusal::desk_full && seventeenth.value() == DOMTHELV_DESK_PLACES, "a seventeenth query");
    const double *inside = reinterpret_cast<const double *>(&d);
    holds(d.begin() == refusal::accepted && d.submit(set, state{30.0, floats(inside, 2), thin}, true).refused() == refusal::length, "fractions in the desk itself");
    holds(d.serve().what == outcome::idle, "a desk begun anew is idle");
}

static void containers() {
    const std::vector<double> v(2, 1.0);
    const std::array<double, 2> a = {{1.0, 1.0}};
    quantum_components c = right;
    quantum_set set;
    c.m = v, c.sigma = a;
    holds(set.assign(c) == refusal::accepted, "lists of containers");
}

// The bytes of a card of two components, of a model, its pair's numbers stored or spared.
static std::vector<std::uint8_t> card_of(unsigned model, bool stored) {
    std::vector<bool> bits;
    const auto put = [&bits](int width, std::uint64_t value) { while (width--) bits.push_back(value >> width & 1); };
    const auto number = [&put](double x) { std::uint64_t v; std::memcpy(&v, &x, 8); put(64, v); };
    put(2, model), put(4, 2);
    for (int i = 0; i < 2; i++) {
        for (const double *l : {ones, sigma, epsilon_k, lr, la, mass})
            if (l != (model % 2 ? mass : ones)) number(l[i]);
        if (model % 2 == 0) put(2, order[i]);
    }
    for (int k = 0; k < 2; k++) {
        if (model > 1) put(1, stored);
        if (stored) number(model > 1 ? -0.0 : 0.0);
    }
    std::vector<std::uint8_t> card((bits.size() + 7) / 8);
    for (std::size_t k = 0; k < bits.size(); k++) card[k / 8] |= bits[k] << (7 - k % 8);
    return card;
}

static void cards() {
    card_set set;
    quantum_set wanted;
    mie_set mie_wanted;
    holds(set.count() == 0 && set.model() == model::quantum && set.quantum().radii(0, 0, 30.0).refused() == refusal::length, "a card's set begins empty");
    holds(wanted.assign(right) == refusal::accepted && mie_wanted.assign(mie_right) == refusal::accepted, "sets");
    const std::vector<std::uint8_t> quantum = card_of(0, true), other = card_of(1, true), newer = card_of(2, false), newer_other = card_of(3, true);
    holds(set.read(quantum) == refusal::accepted && set.model() == model::quantum && set.count() == 2 && same(set.quantum(), wanted), "a card");
    holds(set.mie().count() == 0, "the other model's set is empty");
    for (const auto &card : {quantum, newer}) {
        for (std::size_t n = 0; n < card.size(); n++) {
            const std::vector<std::uint8_t> part(card.begin(), card.begin() + static_cast<std::ptrdiff_t>(n));
            holds((card == quantum ? set.read(part) : set.read_newer(part)) == refusal::short_card && same(set.quantum(), wanted), "a card's beginning", n);
        }
    }
    holds(set.read(newer) == refusal::card_heading && set.read_newer(quantum) == refusal::card_heading, "a card of the other form");
    holds(set.read(bytes(nullptr, 9)) == refusal::short_card && set.read_newer(bytes()) == refusal::short_card, "no card");
    std::vector<std::uint8_t> longer = quantum;
    longer.push_back(0);
    holds(set.read(longer) == refusal::card_filling && same(set.quantum(), wanted), "a byte left over");
    holds(set.read(bytes(set.quantum().orders().data(), 9)) == refusal::length && same(set.quantum(), wanted), "a card in the set itself");
    holds(set.read(other) == refusal::accepted && set.model() == model::mie && set.count() == 2 && set.quantum().count() == 0, "a card of SAFT-VR Mie");
    holds(std::memcmp(&set.mie(), &mie_wanted, sizeof mie_wanted) == 0, "its set");
    holds(set.read_newer(newer) == refusal::accepted && same(set.quantum(), wanted) && set.mie().count() == 0, "a newer card");
    holds(set.read_newer(newer_other) == refusal::accepted && set.model() == model::mie, "a newer card of SAFT-VR Mie");
}

static bool is(const card &c, const std::vector<std::uint8_t> &wanted) {
    return c.bytes().size() == wanted.size() && std::memcmp(c.bytes().data(), wanted.data(), wanted.size()) == 0;
}

static void written_cards() {
    card c;
    card_set set;
    const std::vector<std::uint8_t> quantum = card_of(0, true), other = card_of(1, true);
    holds(c.bytes().size() == 0 && set.read(c.bytes()) == refusal::short_card, "a card begins empty");
    holds(c.write(right) == refusal::accepted && is(c, quantum), "a card is written");
    for (std::size_t n = 0; n <= 150; n++) {
        const auto l = heap(n);
        for (int which = 0; which < 8; which++) {
            quantum_components spoiled = right;
            floats *lists[] = {&spoiled.m, &spoiled.sigma, &spoiled.epsilon_k, &spoiled.lr, &spoiled.la, &spoiled.mass, &spoiled.k_ij, &spoiled.l_ij};
            if (n == (which < 6 ? 2u : 4u)) continue;
            *lists[which] = floats(l.get(), n);
            holds(c.write(spoiled) == refusal::length && is(c, quantum), "a card of lists of a wrong length", n);
        }
    }
    const std::vector<double> nine(9, 9.0), six(9, 6.0), one(9, 1.0), light(9, 1e-26), zeros(81, 0.0);
    const std::vector<std::uint8_t> same_order(9, 1);
    holds(c.write(quantum_components{one, nine, nine, nine, six, light, same_order, zeros, zeros}) == refusal::card_heading && is(c, quantum), "nine components");
    quantum_components within = right;
    within.order = domthelv::bytes(c.bytes().data(), 2);
    holds(c.write(within) == refusal::length && is(c, quantum), "orders in the card itself");
    holds(c.write(mie_right) == refusal::accepted && is(c, other), "a card of SAFT-VR Mie");
    holds(c.write(mie_components()) == refusal::length && is(c, other), "a card of no components");
}

static void moved_cards() {
    card c, d;
    const std::vector<std::uint8_t> older = card_of(1, true), newer = card_of(2, true), spared = card_of(3, false);
    holds(c.to_newer(older) == refusal::accepted && is(c, spared), "a card moved to the newer form");
    holds(d.to_older(c.bytes()) == refusal::accepted && is(d, older), "and back");
    holds(d.to_older(newer) == refusal::accepted && c.to_newer(d.bytes()) == refusal::accepted && is(c, newer), "-0 is kept");
    for (std::size_t n = 0; n < older.size(); n++) {
        const std::vector<std::uint8_t> part(older.begin(), older.begin() + static_cast<std::ptrdiff_t>(n));
        holds(c.to_newer(part) == refusal::short_card && is(c, newer), "a card's beginning, moved", n);
    }
    holds(c.to_newer(newer) == refusal::card_heading && c.to_older(older) == refusal::card_heading && is(c, newer), "a card of the form it is in");
    holds(c.to_older(c.bytes()) == refusal::length && is(c, newer), "a card in the card itself");
    std::vector<std::uint8_t> twelve((6 + 12 * 320 + 132 + 7) / 8);
    twelve[0] = 3 << 6 | 12 << 2;
    holds(c.to_older(twelve) == refusal::too_many && is(c, newer), "twelve components");
}

int main() {
    empty_objects();
    lengths();
    mie_lengths();
    states();
    indexes();
    within();
    desks();
    containers();
    cards();
    written_cards();
    moved_cards();
    std::printf("%d passed, %d failed\n", passed, failed);
    return failed != 0;
}
