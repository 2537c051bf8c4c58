// Helmholtz energies of tank fluids after SAFT-VRQ Mie and SAFT-VR Mie for C++11 and later: types over the functions of domthelv.h,
// which has units, limits, and the refusals of each call in their order. Header only; nothing is allocated and nothing is thrown.
//
// - A list is a pointer with its length, made of an array, of a container with data() and size(), or of both; a temporary is no list.
// - A call gives a `refusal`, or an `answer`: a value or why there is none. The value of a refused answer is NaN, never unset.
// - Sets, tables and diameters are objects of a fixed size that hold their own lists. They begin empty, with a count of 0, which every
//   call refuses with 1. A refused call leaves them as they were.
// - An index is tested: outside the count it is refused with 1, and nothing is read. So are components whose lists lie in the set itself.
#ifndef DOMTHELV_HPP
#define DOMTHELV_HPP

#include "domthelv.h"

#include <algorithm>
#include <cstddef>
#include <cstdint>
#include <functional>
#include <initializer_list>
#include <limits>
#include <type_traits>

namespace domthelv {

static_assert(sizeof(double) == 8 && std::numeric_limits<double>::is_iec559, "binary64");
static_assert(sizeof(bool) == 1 && sizeof(std::size_t) == 8 && sizeof(void *) == 8, "the library's sizes");

constexpr std::size_t side = DOMTHELV_SIDE;

// ---- refusals, answers, lists

enum class refusal : std::uint8_t {
    accepted = DOMTHELV_ACCEPTED,
    length = DOMTHELV_LENGTH,
    limit = DOMTHELV_LIMIT,
    segment_number = DOMTHELV_SEGMENT_NUMBER,
    order = DOMTHELV_ORDER,
    mixed_orders = DOMTHELV_MIXED_ORDERS,
    domain = DOMTHELV_DOMAIN,
    not_finite = DOMTHELV_NOT_FINITE,
    no_ends = DOMTHELV_NO_ENDS,
    short_card = DOMTHELV_SHORT_CARD,
    card_heading = DOMTHELV_CARD_HEADING,
    card_filling = DOMTHELV_CARD_FILLING,
    short_list = DOMTHELV_SHORT_LIST,
    layers = DOMTHELV_LAYERS,
    stored_zero = DOMTHELV_STORED_ZERO,
    too_many = DOMTHELV_TOO_MANY,
    desk_full = DOMTHELV_DESK_FULL
};

inline const char *text(refusal r) noexcept {
    switch (r) {
    case refusal::accepted: return "accepted";
    case refusal::length: return "a count, an index or a list's length is outside";
    case refusal::limit: return "a number is outside its limit";
    case refusal::segment_number: return "an m of the quantum model is not 1";
    case refusal::order: return "an order is above 2";
    case refusal::mixed_orders: return "orders 1 and 2 meet in a pair";
    case refusal::domain: return "an elementary function's argument is outside its domain";
    case refusal::not_finite: return "a result is not finite";
    case refusal::no_ends: return "two ends cannot be given";
    case refusal::short_card: return "a card is too short for the field in hand";
    case refusal::card_heading: return "a card's model is not known, or its count is outside";
    case refusal::card_filling: return "a filling bit of a card is 1, or bytes are left over";
    case refusal::short_list: return "a lent list is shorter than the card that it is to hold";
    case refusal::layers: return "a tank's layer count is outside";
    case refusal::stored_zero: return "a newer card stores a pair's +0";
    case refusal::too_many: return "more components than an older card holds";
    case refusal::desk_full: return "all places of a desk are occupied";
    }
    return "a number that is no refusal";
}

// What a refused answer holds.
constexpr double nothing = std::numeric_limits<double>::quiet_NaN();

// A value, or why there is none.
template <class T> class answer {
    T value_;
    refusal refused_;

public:
    answer(std::uint8_t number, const T &value, const T &none) noexcept : value_(number == 0 ? value : none), refused_(static_cast<refusal>(number)) {}
    bool accepted() const noexcept { return refused_ == refusal::accepted; }
    refusal refused() const noexcept { return refused_; }
    const T &value() const noexcept { return value_; }
};

// Elements that are read: a pointer with its length. They stay the caller's, and must outlive the list.
template <class T> class list {
    const T *data_;
    std::size_t size_;

public:
    constexpr list() noexcept : data_(nullptr), size_(0) {}
    constexpr list(const T *data, std::size_t size) noexcept : data_(data), size_(data ? size : 0) {}
    template <class A, class = typename std::enable_if<std::is_same<A, T[std::extent<A>::value]>::value>::type>
    constexpr list(const A &array) noexcept : data_(array), size_(std::extent<A>::value) {}
    template <class A, class = typename std::enable_if<std::is_same<A, T[std::extent<A>::value]>::value>::type>
    list(const A &&) = delete;
    template <class C, class = decltype(static_cast<const T *>(static_cast<const C *>(nullptr)->data())),
        class = decltype(static_cast<const C *>(nullptr)->size())>
    list(const C &container) noexcept : data_(container.data()), size_(container.size()) {}
    template <class C, class = decltype(static_cast<const T *>(static_cast<const C *>(nullptr)->data())),
        class = decltype(static_cast<const C *>(nullptr)->size())>
    list(const C &&) = delete;
    list(const list &) = default;
    list(list &&) = default;
    list &operator=(const list &) = default;
    const T *data() const noexcept { return data_; }
    std::size_t size() const noexcept { return size_; }
};
using floats = list<double>;
using bytes = list<std::uint8_t>;

// ---- elementary functions

namespace detail {
inline answer<double> one(std::uint8_t number, double value) noexcept { return answer<double>(number, value, nothing); }

// Whether no element of a list lies in an object that is about to be written.
template <class T, class Object> bool apart(const list<T> &l, const Object &object) noexcept {
    const std::less<const void *> before = std::less<const void *>();
    return l.size() == 0 || !before(l.data(), &object + 1) || !before(&object, l.data() + l.size());
}
} // namespace detail

inline answer<double> sqrt(double x) noexcept { double out = 0; std::uint8_t r = domthelv_sqrt(x, &out); return detail::one(r, out); }
inline answer<double> ln(double x) noexcept { double out = 0; std::uint8_t r = domthelv_ln(x, &out); return detail::one(r, out); }
inline answer<double> ln_1p(double x) noexcept { double out = 0; std::uint8_t r = domthelv_ln_1p(x, &out); return detail::one(r, out); }
inline answer<double> exp(double x) noexcept { double out = 0; std::uint8_t r = domthelv_exp(x, &out); return detail::one(r, out); }
inline answer<double> exp_m1(double x) noexcept { double out = 0; std::uint8_t r = domthelv_exp_m1(x, &out); return detail::one(r, out); }
inline answer<double> tanh(double x) noexcept { double out = 0; std::uint8_t r = domthelv_tanh(x, &out); return detail::one(r, out); }
inline answer<double> powf(double base, double exponent) noexcept {
    double out = 0;
    std::uint8_t r = domthelv_powf(base, exponent, &out);
    return detail::one(r, out);
}
inline double powi(double x, std::int32_t n) noexcept { return domthelv_powi(x, n); }

// ---- what is handed in and out

// Lists of the components, each as long as that of m; pair lists have its square.
struct quantum_components {
    floats m, sigma, epsilon_k, lr, la, mass;
    bytes order;
    floats k_ij, l_ij;
};

struct mie_components {
    floats m, sigma, epsilon_k, lr, la, k_ij, gamma_ij;
};

struct state {
    double temperature;
    floats fractions, densities;
};

// Layers of a tank from the bottom up: a temperature and a volume (cubic angstrom) for each layer, a fraction and a density for each
// component, layer by layer. There are as many layers as temperatures.
struct tank {
    floats temperatures, fractions, densities, volumes;
};

struct energies {
    double hard_sphere, dispersion, non_additive; // the last is +0 where it was not wanted
};

// A rounded sum and what the rounding left; together they are exact.
struct rounded_sum {
    double sum, remainder;
};

struct total {
    rounded_sum first, last; // hard sphere and dispersion; that and the non-additive part
};

// Two ends that enclose the float result and the exact one.
struct ends {
    double low, high;
};

struct energies_ends {
    ends hard_sphere, dispersion, non_additive;
};

// The slopes of a state's numbers, and a value with its slope.
struct state_slopes {
    double temperature;
    floats fractions, densities;
};

struct sloped {
    double value, slope;
};

struct energies_slopes {
    sloped hard_sphere, dispersion, non_additive; // the last is +0, +0 where it was not wanted
};

// A search: its radius, the last potential, and its evaluations, 20 where it was spent.
struct search {
    double radius, potential;
    std::uint8_t count;
};

struct searches {
    search sigma, zero, depth;
};

struct order_counts {
    std::uint64_t passing, order, mixed_orders;
};

class table;
class diameters;
class card_set;

// ---- quantum model (SAFT-VRQ Mie)

// How the 4^count order lists fall.
inline answer<order_counts> count_orders(std::size_t count) noexcept {
    std::uint64_t out[DOMTHELV_ORDER_COUNTS] = {0, 0, 0};
    std::uint8_t r = domthelv_order_counts(count, out, DOMTHELV_ORDER_COUNTS);
    return answer<order_counts>(r, order_counts{out[0], out[1], out[2]}, order_counts{0, 0, 0});
}

// Whether a record's m is one that the quantum model takes.
inline refusal record_m(double m) noexcept { return static_cast<refusal>(domthelv_vrq_record_m(m)); }

class quantum_set {
    friend class card_set;
    std::size_t count_ = 0;
    double m_[DOMTHELV_M] = {}, sheets_[DOMTHELV_SHEETS] = {};
    std::uint8_t orders_[DOMTHELV_ORDERS] = {};

    answer<double> entry(std::size_t sheet, std::size_t i, std::size_t j) const noexcept {
        return i < count_ && j < count_ ? detail::one(0, sheets_[DOMTHELV_AT(sheet, i, j)]) : detail::one(DOMTHELV_LENGTH, nothing);
    }

public:
    std::size_t count() const noexcept { return count_; }
    answer<double> m(std::size_t i) const noexcept { return i < count_ ? detail::one(0, m_[i]) : detail::one(DOMTHELV_LENGTH, nothing); }
    answer<double> sigma_ij(std::size_t i, std::size_t j) const noexcept { return entry(DOMTHELV_VRQ_SIGMA_IJ, i, j); }
    answer<double> epsilon_k_ij(std::size_t i, std::size_t j) const noexcept { return entry(DOMTHELV_VRQ_EPSILON_K_IJ, i, j); }
    answer<double> c_ij(std::size_t i, std::size_t j) const noexcept { return entry(DOMTHELV_VRQ_C_IJ, i, j); }
    answer<double> lambda_r_ij(std::size_t i, std::size_t j) const noexcept { return entry(DOMTHELV_VRQ_LAMBDA_R_IJ, i, j); }
    answer<double> lambda_a_ij(std::size_t i, std::size_t j) const noexcept { return entry(DOMTHELV_VRQ_LAMBDA_A_IJ, i, j); }
    answer<double> mass_ij(std::size_t i, std::size_t j) const noexcept { return entry(DOMTHELV_VRQ_MASS_IJ, i, j); }
    answer<std::uint8_t> order(std::size_t i, std::size_t j) const noexcept {
        return i < count_ && j < count_ ? answer<std::uint8_t>(0, orders_[DOMTHELV_AT(0, i, j)], 255) : answer<std::uint8_t>(DOMTHELV_LENGTH, 255, 255);
    }

    // The set of some components, in the place of what stands here.
    refusal assign(const quantum_components &c) noexcept {
        for (const floats *l : {&c.m, &c.sigma, &c.epsilon_k, &c.lr, &c.la, &c.mass, &c.k_ij, &c.l_ij})
            if (!detail::apart(*l, *this)) return refusal::length;
        if (!detail::apart(c.order, *this)) return refusal::length;
        std::uint8_t r = domthelv_vrq_parameters(c.m.size(), c.m.data(), c.m.size(), c.sigma.data(), c.sigma.size(), c.epsilon_k.data(),
            c.epsilon_k.size(), c.lr.data(), c.lr.size(), c.la.data(), c.la.size(), c.mass.data(), c.mass.size(), c.order.data(),
            c.order.size(), c.k_ij.data(), c.k_ij.size(), c.l_ij.data(), c.l_ij.size(), m_, DOMTHELV_M, sheets_, DOMTHELV_SHEETS, orders_,
            DOMTHELV_ORDERS);
        if (r == 0) count_ = c.m.size();
        return static_cast<refusal>(r);
    }

    inline answer<domthelv::energies> energies(const state &s, const table &t, bool non_additive) const noexcept;
    inline answer<domthelv::total> total(const state &s, const table &t, bool non_additive) const noexcept;
    inline answer<domthelv::energies_ends> energies_ends(const state &s, const table &t, bool non_additive) const noexcept;

    // A tank's energies, in kelvin, and their two ends.
    answer<domthelv::energies> tank(const domthelv::tank &l, bool non_additive) const noexcept {
        double out[DOMTHELV_ENERGIES] = {};
        std::uint8_t r = domthelv_vrq_tank(count_, m_, DOMTHELV_M, sheets_, DOMTHELV_SHEETS, orders_, DOMTHELV_ORDERS, l.temperatures.size(),
            l.temperatures.data(), l.temperatures.size(), l.fractions.data(), l.fractions.size(), l.densities.data(), l.densities.size(),
            l.volumes.data(), l.volumes.size(), non_additive, out, DOMTHELV_ENERGIES);
        return answer<domthelv::energies>(r, domthelv::energies{out[0], out[1], out[2]}, domthelv::energies{nothing, nothing, nothing});
    }
    answer<domthelv::energies_ends> tank_ends(const domthelv::tank &l, bool non_additive) const noexcept {
        double out[DOMTHELV_ENERGIES_ENDS] = {};
        std::uint8_t r = domthelv_vrq_tank_ends(count_, m_, DOMTHELV_M, sheets_, DOMTHELV_SHEETS, orders_, DOMTHELV_ORDERS, l.temperatures.size(),
            l.temperatures.data(), l.temperatures.size(), l.fractions.data(), l.fractions.size(), l.densities.data(), l.densities.size(),
            l.volumes.data(), l.volumes.size(), non_additive, out, DOMTHELV_ENERGIES_ENDS);
        const ends none = {nothing, nothing};
        return answer<domthelv::energies_ends>(r, domthelv::energies_ends{{out[0], out[1]}, {out[2], out[3]}, {out[4], out[5]}},
            domthelv::energies_ends{none, none, none});
    }

    // Energies with slopes, by a table of the call's own.
    answer<domthelv::energies_slopes> energies_slopes(const state &s, const state_slopes &d, bool non_additive) const noexcept {
        double out[DOMTHELV_ENERGIES_SLOPES] = {};
        std::uint8_t r = domthelv_vrq_energies_slopes(count_, m_, DOMTHELV_M, sheets_, DOMTHELV_SHEETS, orders_, DOMTHELV_ORDERS, s.temperature,
            d.temperature, s.fractions.data(), s.fractions.size(), d.fractions.data(), d.fractions.size(), s.densities.data(),
            s.densities.size(), d.densities.data(), d.densities.size(), non_additive, out, DOMTHELV_ENERGIES_SLOPES);
        const sloped none = {nothing, nothing};
        return answer<domthelv::energies_slopes>(r, domthelv::energies_slopes{{out[0], out[1]}, {out[2], out[3]}, {out[4], out[5]}},
            domthelv::energies_slopes{none, none, none});
    }

    // A pair's three searches.
    answer<searches> radii(std::size_t i, std::size_t j, double temperature) const noexcept {
        double out[DOMTHELV_RADII] = {};
        std::uint8_t n[DOMTHELV_RADII_COUNTS] = {};
        std::uint8_t r = domthelv_vrq_radii(count_, m_, DOMTHELV_M, sheets_, DOMTHELV_SHEETS, orders_, DOMTHELV_ORDERS, i, j, temperature, out,
            DOMTHELV_RADII, n, DOMTHELV_RADII_COUNTS);
        const search none = {nothing, nothing, 0};
        return answer<searches>(r, searches{{out[0], out[1], n[0]}, {out[2], out[3], n[1]}, {out[4], out[5], n[2]}}, searches{none, none, none});
    }

    // A pair's diameter from its searched radii, and its two ends.
    answer<double> diameter(std::size_t i, std::size_t j, double temperature, double sigma_eff, double r0) const noexcept {
        double out = 0;
        std::uint8_t r = domthelv_vrq_diameter(count_, m_, DOMTHELV_M, sheets_, DOMTHELV_SHEETS, orders_, DOMTHELV_ORDERS, i, j, temperature,
            sigma_eff, r0, &out);
        return detail::one(r, out);
    }
    answer<ends> diameter_ends(std::size_t i, std::size_t j, double temperature, double sigma_eff, double r0) const noexcept {
        double out[DOMTHELV_ENDS] = {};
        std::uint8_t r = domthelv_vrq_diameter_ends(count_, m_, DOMTHELV_M, sheets_, DOMTHELV_SHEETS, orders_, DOMTHELV_ORDERS, i, j, temperature,
            sigma_eff, r0, out, DOMTHELV_ENDS);
        return answer<ends>(r, ends{out[0], out[1]}, ends{nothing, nothing});
    }

    // The lists as the C functions take them; not of a temporary.
    floats m_list() const & noexcept { return floats(m_, DOMTHELV_M); }
    floats m_list() const && = delete;
    floats sheets() const & noexcept { return floats(sheets_, DOMTHELV_SHEETS); }
    floats sheets() const && = delete;
    bytes orders() const & noexcept { return bytes(orders_, DOMTHELV_ORDERS); }
    bytes orders() const && = delete;
};

// A temperature table.
class table {
    std::size_t count_ = 0;
    double values_[DOMTHELV_TABLE] = {};
    std::uint8_t counts_[DOMTHELV_COUNTS] = {};

    answer<double> entry(std::size_t sheet, std::size_t i, std::size_t j) const noexcept {
        return i < count_ && j < count_ ? detail::one(0, values_[DOMTHELV_AT(sheet, i, j)]) : detail::one(DOMTHELV_LENGTH, nothing);
    }
    answer<std::uint8_t> spent(std::size_t sheet, std::size_t i, std::size_t j) const noexcept {
        return i < count_ && j < count_ ? answer<std::uint8_t>(0, counts_[DOMTHELV_AT(sheet, i, j)], 0) : answer<std::uint8_t>(DOMTHELV_LENGTH, 0, 0);
    }

public:
    std::size_t count() const noexcept { return count_; }
    answer<double> sigma_eff(std::size_t i, std::size_t j) const noexcept { return entry(DOMTHELV_TABLE_SIGMA_EFF, i, j); }
    answer<double> hs_diameter(std::size_t i, std::size_t j) const noexcept { return entry(DOMTHELV_TABLE_HS_DIAMETER, i, j); }
    answer<double> epsilon_k_eff(std::size_t i, std::size_t j) const noexcept { return entry(DOMTHELV_TABLE_EPSILON_K_EFF, i, j); }
    answer<double> quantum_d(std::size_t i, std::size_t j) const noexcept { return entry(DOMTHELV_TABLE_QUANTUM_D, i, j); }
    // Evaluations of the searches, 20 where one was spent.
    answer<std::uint8_t> sigma_count(std::size_t i, std::size_t j) const noexcept { return spent(0, i, j); }
    answer<std::uint8_t> zero_count(std::size_t i, std::size_t j) const noexcept { return spent(1, i, j); }
    answer<std::uint8_t> depth_count(std::size_t i, std::size_t j) const noexcept { return spent(2, i, j); }

    // The table of a set at a temperature, in the place of what stands here.
    refusal work(const quantum_set &s, double temperature) noexcept {
        std::uint8_t r = domthelv_vrq_table(s.count(), s.m_list().data(), DOMTHELV_M, s.sheets().data(), DOMTHELV_SHEETS, s.orders().data(),
            DOMTHELV_ORDERS, temperature, values_, DOMTHELV_TABLE, counts_, DOMTHELV_COUNTS);
        if (r == 0) count_ = s.count();
        return static_cast<refusal>(r);
    }

    floats values() const & noexcept { return floats(values_, DOMTHELV_TABLE); }
    floats values() const && = delete;
    bytes counts() const & noexcept { return bytes(counts_, DOMTHELV_COUNTS); }
    bytes counts() const && = delete;
};

// A table of another count than the set's, an empty one among them, is refused with 1: it is lent as a list of no elements.
namespace detail {
inline std::size_t lent(std::size_t count, const table &t) noexcept { return t.count() == count ? DOMTHELV_TABLE : 0; }
} // namespace detail

inline answer<energies> quantum_set::energies(const state &s, const table &t, bool non_additive) const noexcept {
    double out[DOMTHELV_ENERGIES] = {};
    std::uint8_t r = domthelv_vrq_energies(count_, m_, DOMTHELV_M, sheets_, DOMTHELV_SHEETS, orders_, DOMTHELV_ORDERS, s.temperature,
        s.fractions.data(), s.fractions.size(), s.densities.data(), s.densities.size(), t.values().data(), detail::lent(count_, t), non_additive,
        out, DOMTHELV_ENERGIES);
    return answer<domthelv::energies>(r, domthelv::energies{out[0], out[1], out[2]}, domthelv::energies{nothing, nothing, nothing});
}

inline answer<total> quantum_set::total(const state &s, const table &t, bool non_additive) const noexcept {
    double out[DOMTHELV_TOTAL] = {};
    std::uint8_t r = domthelv_vrq_total(count_, m_, DOMTHELV_M, sheets_, DOMTHELV_SHEETS, orders_, DOMTHELV_ORDERS, s.temperature,
        s.fractions.data(), s.fractions.size(), s.densities.data(), s.densities.size(), t.values().data(), detail::lent(count_, t), non_additive,
        out, DOMTHELV_TOTAL);
    return answer<domthelv::total>(r, domthelv::total{{out[0], out[1]}, {out[2], out[3]}}, domthelv::total{{nothing, nothing}, {nothing, nothing}});
}

inline answer<energies_ends> quantum_set::energies_ends(const state &s, const table &t, bool non_additive) const noexcept {
    double out[DOMTHELV_ENERGIES_ENDS] = {};
    std::uint8_t r = domthelv_vrq_energies_ends(count_, m_, DOMTHELV_M, sheets_, DOMTHELV_SHEETS, orders_, DOMTHELV_ORDERS, s.temperature,
        s.fractions.data(), s.fractions.size(), s.densities.data(), s.densities.size(), t.values().data(), detail::lent(count_, t), non_additive,
        out, DOMTHELV_ENERGIES_ENDS);
    const ends none = {nothing, nothing};
    return answer<domthelv::energies_ends>(r, domthelv::energies_ends{{out[0], out[1]}, {out[2], out[3]}, {out[4], out[5]}},
        domthelv::energies_ends{none, none, none});
}

// From components to energies, with a table of its own.
inline answer<energies> quantum_stage(const quantum_components &c, const state &s, bool non_additive) noexcept {
    double out[DOMTHELV_ENERGIES] = {};
    std::uint8_t r = domthelv_vrq_stage(c.m.size(), c.m.data(), c.m.size(), c.sigma.data(), c.sigma.size(), c.epsilon_k.data(), c.epsilon_k.size(),
        c.lr.data(), c.lr.size(), c.la.data(), c.la.size(), c.mass.data(), c.mass.size(), c.order.data(), c.order.size(), c.k_ij.data(),
        c.k_ij.size(), c.l_ij.data(), c.l_ij.size(), s.temperature, s.fractions.data(), s.fractions.size(), s.densities.data(),
        s.densities.size(), non_additive, out, DOMTHELV_ENERGIES);
    return answer<energies>(r, energies{out[0], out[1], out[2]}, energies{nothing, nothing, nothing});
}

// ---- SAFT-VR Mie

class mie_set {
    friend class card_set;
    std::size_t count_ = 0;
    double lists_[DOMTHELV_LISTS] = {}, sheets_[DOMTHELV_SHEETS] = {};

    answer<double> entry(std::size_t sheet, std::size_t i, std::size_t j) const noexcept {
        return i < count_ && j < count_ ? detail::one(0, sheets_[DOMTHELV_AT(sheet, i, j)]) : detail::one(DOMTHELV_LENGTH, nothing);
    }
    answer<double> of(std::size_t which, std::size_t i) const noexcept {
        return i < count_ ? detail::one(0, lists_[DOMTHELV_SIDE * which + i]) : detail::one(DOMTHELV_LENGTH, nothing);
    }

public:
    std::size_t count() const noexcept { return count_; }
    answer<double> m(std::size_t i) const noexcept { return of(0, i); }
    answer<double> sigma(std::size_t i) const noexcept { return of(1, i); }
    answer<double> epsilon_k(std::size_t i) const noexcept { return of(2, i); }
    answer<double> lr(std::size_t i) const noexcept { return of(3, i); }
    answer<double> la(std::size_t i) const noexcept { return of(4, i); }
    answer<double> sigma_ij(std::size_t i, std::size_t j) const noexcept { return entry(DOMTHELV_VR_SIGMA_IJ, i, j); }
    answer<double> epsilon_k_ij(std::size_t i, std::size_t j) const noexcept { return entry(DOMTHELV_VR_EPSILON_K_IJ, i, j); }
    answer<double> lr_ij(std::size_t i, std::size_t j) const noexcept { return entry(DOMTHELV_VR_LR_IJ, i, j); }
    answer<double> la_ij(std::size_t i, std::size_t j) const noexcept { return entry(DOMTHELV_VR_LA_IJ, i, j); }
    answer<double> c_ij(std::size_t i, std::size_t j) const noexcept { return entry(DOMTHELV_VR_C_IJ, i, j); }
    answer<double> alpha_ij(std::size_t i, std::size_t j) const noexcept { return entry(DOMTHELV_VR_ALPHA_IJ, i, j); }

    // The set of some components, in the place of what stands here.
    refusal assign(const mie_components &c) noexcept {
        for (const floats *l : {&c.m, &c.sigma, &c.epsilon_k, &c.lr, &c.la, &c.k_ij, &c.gamma_ij})
            if (!detail::apart(*l, *this)) return refusal::length;
        std::uint8_t r = domthelv_vr_parameters(c.m.size(), c.m.data(), c.m.size(), c.sigma.data(), c.sigma.size(), c.epsilon_k.data(),
            c.epsilon_k.size(), c.lr.data(), c.lr.size(), c.la.data(), c.la.size(), c.k_ij.data(), c.k_ij.size(), c.gamma_ij.data(),
            c.gamma_ij.size(), lists_, DOMTHELV_LISTS, sheets_, DOMTHELV_SHEETS);
        if (r == 0) count_ = c.m.size();
        return static_cast<refusal>(r);
    }

    inline answer<double> dispersion(const state &s, const diameters &d, bool chain) const noexcept;
    inline answer<ends> dispersion_ends(const state &s, const diameters &d, bool chain) const noexcept;

    // A pair's reduced r0, its diameter from that, and two ends of the diameter.
    answer<double> radius(std::size_t i, std::size_t j, double temperature) const noexcept {
        double out = 0;
        std::uint8_t r = domthelv_vr_radius(count_, lists_, DOMTHELV_LISTS, sheets_, DOMTHELV_SHEETS, i, j, temperature, &out);
        return detail::one(r, out);
    }
    answer<double> diameter(std::size_t i, std::size_t j, double temperature, double r0) const noexcept {
        double out = 0;
        std::uint8_t r = domthelv_vr_diameter(count_, lists_, DOMTHELV_LISTS, sheets_, DOMTHELV_SHEETS, i, j, temperature, r0, &out);
        return detail::one(r, out);
    }
    answer<ends> diameter_ends(std::size_t i, std::size_t j, double temperature, double r0) const noexcept {
        double out[DOMTHELV_ENDS] = {};
        std::uint8_t r = domthelv_vr_diameter_ends(count_, lists_, DOMTHELV_LISTS, sheets_, DOMTHELV_SHEETS, i, j, temperature, r0, out,
            DOMTHELV_ENDS);
        return answer<ends>(r, ends{out[0], out[1]}, ends{nothing, nothing});
    }

    floats lists() const & noexcept { return floats(lists_, DOMTHELV_LISTS); }
    floats lists() const && = delete;
    floats sheets() const & noexcept { return floats(sheets_, DOMTHELV_SHEETS); }
    floats sheets() const && = delete;
};

// The diameters of a set's components.
class diameters {
    std::size_t count_ = 0;
    double values_[DOMTHELV_SIDE] = {};

public:
    std::size_t count() const noexcept { return count_; }
    answer<double> hs_diameter(std::size_t i) const noexcept {
        return i < count_ ? detail::one(0, values_[i]) : detail::one(DOMTHELV_LENGTH, nothing);
    }
    // The diameters of a set at a temperature, in the place of what stands here.
    refusal work(const mie_set &s, double temperature) noexcept {
        const std::size_t n = s.count() <= DOMTHELV_SIDE ? s.count() : 0;
        std::uint8_t r = domthelv_vr_diameters(s.count(), s.lists().data(), DOMTHELV_LISTS, s.sheets().data(), DOMTHELV_SHEETS, temperature, values_, n);
        if (r == 0) count_ = n;
        return static_cast<refusal>(r);
    }
    floats values() const & noexcept { return floats(values_, count_); }
    floats values() const && = delete;
};

inline answer<double> mie_set::dispersion(const state &s, const diameters &d, bool chain) const noexcept {
    double out = 0;
    std::uint8_t r = domthelv_vr_dispersion(count_, lists_, DOMTHELV_LISTS, sheets_, DOMTHELV_SHEETS, s.temperature, s.fractions.data(),
        s.fractions.size(), s.densities.data(), s.densities.size(), d.values().data(), d.values().size(), chain, &out);
    return detail::one(r, out);
}

inline answer<ends> mie_set::dispersion_ends(const state &s, const diameters &d, bool chain) const noexcept {
    double out[DOMTHELV_ENDS] = {};
    std::uint8_t r = domthelv_vr_dispersion_ends(count_, lists_, DOMTHELV_LISTS, sheets_, DOMTHELV_SHEETS, s.temperature, s.fractions.data(),
        s.fractions.size(), s.densities.data(), s.densities.size(), d.values().data(), d.values().size(), chain, out, DOMTHELV_ENDS);
    return answer<ends>(r, ends{out[0], out[1]}, ends{nothing, nothing});
}

// From components to the dispersion, with the chain where it is wanted.
inline answer<double> mie_stage(const mie_components &c, const state &s, bool chain) noexcept {
    double out = 0;
    std::uint8_t r = domthelv_vr_stage(c.m.size(), c.m.data(), c.m.size(), c.sigma.data(), c.sigma.size(), c.epsilon_k.data(), c.epsilon_k.size(),
        c.lr.data(), c.lr.size(), c.la.data(), c.la.size(), c.k_ij.data(), c.k_ij.size(), c.gamma_ij.data(), c.gamma_ij.size(), s.temperature,
        s.fractions.data(), s.fractions.size(), s.densities.data(), s.densities.size(), chain, &out);
    return detail::one(r, out);
}

// ---- fuel cards

enum class model : std::uint8_t { quantum = 0, mie = 1 };

// The bytes of a card, of either form. Begins empty, which every reader refuses with 9.
class card {
    std::size_t length_ = 0;
    std::uint8_t bytes_[DOMTHELV_NEWER_CARD] = {};

public:
    // The card of some components, at most eight, in the place of what stands here.
    refusal write(const quantum_components &c) noexcept {
        for (const floats *l : {&c.m, &c.sigma, &c.epsilon_k, &c.lr, &c.la, &c.mass, &c.k_ij, &c.l_ij})
            if (!detail::apart(*l, *this)) return refusal::length;
        if (!detail::apart(c.order, *this)) return refusal::length;
        return static_cast<refusal>(domthelv_vrq_card(c.m.size(), c.m.data(), c.m.size(), c.sigma.data(), c.sigma.size(), c.epsilon_k.data(),
            c.epsilon_k.size(), c.lr.data(), c.lr.size(), c.la.data(), c.la.size(), c.mass.data(), c.mass.size(), c.order.data(),
            c.order.size(), c.k_ij.data(), c.k_ij.size(), c.l_ij.data(), c.l_ij.size(), bytes_, DOMTHELV_NEWER_CARD, &length_));
    }
    refusal write(const mie_components &c) noexcept {
        for (const floats *l : {&c.m, &c.sigma, &c.epsilon_k, &c.lr, &c.la, &c.k_ij, &c.gamma_ij})
            if (!detail::apart(*l, *this)) return refusal::length;
        return static_cast<refusal>(domthelv_vr_card(c.m.size(), c.m.data(), c.m.size(), c.sigma.data(), c.sigma.size(), c.epsilon_k.data(),
            c.epsilon_k.size(), c.lr.data(), c.lr.size(), c.la.data(), c.la.size(), c.k_ij.data(), c.k_ij.size(), c.gamma_ij.data(),
            c.gamma_ij.size(), bytes_, DOMTHELV_NEWER_CARD, &length_));
    }
    // A card moved to the other form, in the place of what stands here: it reads as lists of the same bits.
    refusal to_newer(const domthelv::bytes &older) noexcept {
        if (!detail::apart(older, *this)) return refusal::length;
        return static_cast<refusal>(domthelv_card_to_newer(older.data(), older.size(), bytes_, DOMTHELV_NEWER_CARD, &length_));
    }
    refusal to_older(const domthelv::bytes &newer) noexcept {
        if (!detail::apart(newer, *this)) return refusal::length;
        return static_cast<refusal>(domthelv_card_to_older(newer.data(), newer.size(), bytes_, DOMTHELV_NEWER_CARD, &length_));
    }
    domthelv::bytes bytes() const & noexcept { return domthelv::bytes(bytes_, length_); }
    domthelv::bytes bytes() const && = delete;
};

// The set of a card, of either model: that of the other is empty. Begins as an empty quantum set.
class card_set {
    domthelv::model model_ = domthelv::model::quantum;
    quantum_set quantum_;
    mie_set mie_;

    template <class Reader> refusal read_by(Reader reader, const bytes &card) noexcept {
        if (!detail::apart(card, *this)) return refusal::length;
        quantum_set q;
        mie_set v;
        std::uint8_t m = 0;
        std::size_t count = 0;
        std::uint8_t r = reader(card.data(), card.size(), &m, &count, q.m_, DOMTHELV_M, v.lists_, DOMTHELV_LISTS, q.sheets_, DOMTHELV_SHEETS,
            q.orders_, DOMTHELV_ORDERS);
        if (r != 0) return static_cast<refusal>(r);
        if (m == 0) {
            q.count_ = count;
            v = mie_set();
        } else {
            v.count_ = count;
            std::copy(q.sheets_, q.sheets_ + DOMTHELV_SHEETS, v.sheets_);
            q = quantum_set();
        }
        model_ = static_cast<domthelv::model>(m), quantum_ = q, mie_ = v;
        return refusal::accepted;
    }

public:
    domthelv::model model() const noexcept { return model_; }
    std::size_t count() const noexcept { return model_ == domthelv::model::quantum ? quantum_.count() : mie_.count(); }
    const quantum_set &quantum() const & noexcept { return quantum_; }
    const quantum_set &quantum() const && = delete;
    const mie_set &mie() const & noexcept { return mie_; }
    const mie_set &mie() const && = delete;

    // The set of a card, in the place of what stands here.
    refusal read(const bytes &card) noexcept { return read_by(domthelv_card_parameters, card); }
    refusal read_newer(const bytes &card) noexcept { return read_by(domthelv_newer_card_parameters, card); }
};

// ---- the desk

// What a call of `serve` did: no query was waiting, a unit was done, or a query is finished.
enum class outcome : std::uint8_t { idle = 0, worked = 1, finished = 2 };

struct served {
    outcome what;
    std::size_t place;  // of a finished query, else DOMTHELV_DESK_PLACES
    refusal number;     // of a finished query: accepted, domain or not_finite; else accepted
    energies value;     // of a query that is finished and accepted, else NaN
};

// One desk for quantum queries of all pages, in lists of its own; it begins with no query.
class desk {
    double floats_[DOMTHELV_DESK_FLOATS] = {};
    std::uint8_t bytes_[DOMTHELV_DESK_BYTES] = {};

public:
    desk() noexcept { begin(); }

    // Begins anew: all queries are dropped.
    refusal begin() noexcept { return static_cast<refusal>(domthelv_desk_begin(floats_, DOMTHELV_DESK_FLOATS, bytes_, DOMTHELV_DESK_BYTES)); }

    // A query takes the lowest free place, which is given. Set and state are copied.
    answer<std::size_t> submit(const quantum_set &s, const state &x, bool non_additive) noexcept {
        const std::size_t none = DOMTHELV_DESK_PLACES;
        if (!detail::apart(x.fractions, *this) || !detail::apart(x.densities, *this)) return answer<std::size_t>(DOMTHELV_LENGTH, none, none);
        std::size_t place = none;
        std::uint8_t r = domthelv_desk_submit(floats_, DOMTHELV_DESK_FLOATS, bytes_, DOMTHELV_DESK_BYTES, s.count(), s.m_list().data(),
            DOMTHELV_M, s.sheets().data(), DOMTHELV_SHEETS, s.orders().data(), DOMTHELV_ORDERS, x.temperature, x.fractions.data(),
            x.fractions.size(), x.densities.data(), x.densities.size(), non_additive, &place);
        return answer<std::size_t>(r, place, none);
    }

    // One unit for the query in the next occupied place above the one served last.
    served serve() noexcept {
        std::uint8_t what = 0, number = 0;
        std::size_t place = DOMTHELV_DESK_PLACES;
        double out[DOMTHELV_ENERGIES] = {nothing, nothing, nothing};
        domthelv_desk_serve(floats_, DOMTHELV_DESK_FLOATS, bytes_, DOMTHELV_DESK_BYTES, &what, &place, &number, out, DOMTHELV_ENERGIES);
        return served{static_cast<outcome>(what), place, static_cast<refusal>(number), energies{out[0], out[1], out[2]}};
    }
};

} // namespace domthelv

#endif
