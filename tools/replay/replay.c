/* Replays the files of vectors (docs/VECTORS.md) through the C boundary and compares each answer with the file's, bit for bit:
 * replay [-each K] FILE.. takes each K-th chain or record, and knows a file by its name: vectors.bin (elementary functions), cases.bin
 * (worked cases), and chains of calls, mie*.bin and quantum*.bin. A line for each file, and at the end 'N passed, M failed'.
 * Runs wherever the library does: that is what it is for. */
#include <domthelv.h>
#include <stdio.h>
#include <stdlib.h>
#include <string.h>

enum { HEAD = 24, WORDS = 512, FLOATS = 2080, BYTES = 448 };

static unsigned long calls, differ, left_out, each = 1;

static void noted(int same) {
    calls++;
    if (!same) differ++;
}

/* ---- floats by their patterns; all NaNs are one */

static double of_bits(uint64_t n) {
    double x;
    if (n % 0x8000000000000000u > 0x7ff0000000000000u) n = 0x7ff8000000000000u;
    memcpy(&x, &n, sizeof x);
    return x;
}

static uint64_t bits_of(double x) {
    uint64_t n;
    memcpy(&n, &x, sizeof n);
    return x == x ? n : 0x7ff8000000000000u;
}

/* ---- words, least significant byte first */

static int words(FILE *file, uint64_t *to, size_t n) {
    unsigned char b[8];
    for (size_t k = 0; k < n; k++) {
        if (fread(b, 1, 8, file) != 8) return 0;
        to[k] = 0;
        for (int i = 7; i >= 0; i--) to[k] = to[k] << 8 | b[i];
    }
    return 1;
}

/* ---- elementary functions: which, two arguments' bits, the answer's bits or all ones */

static uint8_t elementary(uint64_t which, double x, double y, double *out) {
    switch (which) {
    case 0: return domthelv_sqrt(x, out);
    case 1: return domthelv_ln(x, out);
    case 2: return domthelv_ln_1p(x, out);
    case 3: return domthelv_exp(x, out);
    case 4: return domthelv_exp_m1(x, out);
    case 5: return domthelv_tanh(x, out);
    default: return domthelv_powf(x, y, out);
    }
}

static void vectors(FILE *file) {
    uint64_t w[4];
    for (unsigned long k = 0; words(file, w, 4); k++) {
        if (k % each) continue;
        double out = 7.0;
        uint8_t number = elementary(w[0], of_bits(w[1]), of_bits(w[2]), &out);
        noted(w[3] == UINT64_MAX ? number == DOMTHELV_DOMAIN && out == 7.0 : number == 0 && bits_of(out) == w[3]);
    }
}

/* ---- chains of calls: the set, the table and the diameters stay between them */

static size_t count;
static double m[DOMTHELV_M], lists[DOMTHELV_LISTS], sheets[DOMTHELV_SHEETS], table[DOMTHELV_TABLE], diameters[DOMTHELV_SIDE];
static uint8_t orders[DOMTHELV_ORDERS], counts[DOMTHELV_COUNTS];
static uint64_t head[HEAD], listed[WORDS];
static double floats[WORDS];

static uint64_t with_word(uint64_t h, uint64_t w) {
    for (int i = 0; i < 8; i++) h = (h ^ (w >> 8 * i & 255)) * 0x100000001b3u;
    return h;
}

static const uint64_t START = 0xcbf29ce484222325u;

/* A place by its number: 10000 for each sheet, 100 for each row, 1 for each column. */
static uint64_t with_place(uint64_t h, uint64_t of, size_t k, uint64_t bits) {
    uint64_t place = of * 1000000 + 10000 * (k / DOMTHELV_SHEET) + 100 * (k % DOMTHELV_SHEET / DOMTHELV_SIDE) + k % DOMTHELV_SIDE;
    return bits == 0 ? h : with_word(with_word(h, place), bits);
}

static uint64_t with_floats(uint64_t h, uint64_t of, const double *l, size_t n) {
    for (size_t k = 0; k < n; k++) h = with_place(h, of, k, bits_of(l[k]));
    return h;
}

static uint64_t with_bytes(uint64_t h, uint64_t of, const uint8_t *l, size_t n) {
    for (size_t k = 0; k < n; k++) h = with_place(h, of, k, l[k]);
    return h;
}

/* Component lists: a list's number is that of a sheet. */
static uint64_t with_lists(uint64_t h, const double *l, size_t n) {
    for (size_t k = 0; k < n; k++) {
        uint64_t bits = bits_of(l[k]), place = 1000000 + 10000 * (k / DOMTHELV_SIDE) + k % DOMTHELV_SIDE;
        if (bits != 0) h = with_word(with_word(h, place), bits);
    }
    return h;
}

static size_t index_of(uint64_t place) {
    return DOMTHELV_SHEET * (place / 10000 % 100) + DOMTHELV_SIDE * (place / 100 % 100) + place % 100;
}

static void by_hand(int quantum) {
    for (size_t k = 0; k + 1 < head[5]; k += 2) {
        uint64_t place = listed[k], at = index_of(place), in_lists = DOMTHELV_SIDE * (place / 10000 % 100) + place % 100;
        double x = of_bits(listed[k + 1]);
        switch (place / 1000000) {
        case 0: count = (size_t)listed[k + 1]; break;
        case 1:
            if (quantum && in_lists < DOMTHELV_M) m[in_lists] = x;
            if (!quantum && in_lists < DOMTHELV_LISTS) lists[in_lists] = x;
            break;
        case 2: if (at < DOMTHELV_SHEETS) sheets[at] = x; break;
        case 3: if (at < DOMTHELV_ORDERS) orders[at] = (uint8_t)listed[k + 1]; break;
        default:
            if (quantum && at < DOMTHELV_TABLE) table[at] = x;
            if (!quantum && at < DOMTHELV_SIDE) diameters[at] = x;
        }
    }
}

static size_t lent(size_t k, size_t whole) { return head[k] == 0 ? whole : head[k] == 1 ? whole - 1 : 0; }

/* Whether a call gave the head's number and, from word 15 on, these words. */
static int told(uint8_t number, const uint64_t *given, size_t n) {
    if (number != head[1]) return 0;
    for (size_t k = 0; k < n; k++) if (given[k] != head[15 + k]) return 0;
    return 1;
}

static int told_floats(uint8_t number, const double *given, size_t n) {
    uint64_t w[8];
    for (size_t k = 0; k < n; k++) w[k] = bits_of(given[k]);
    return told(number, w, number == 0 ? n : 0);
}

static void empty_set(void) {
    count = 0;
    memset(m, 0, sizeof m), memset(lists, 0, sizeof lists), memset(sheets, 0, sizeof sheets), memset(orders, 0, sizeof orders);
}

/* A refused call must leave what it was lent; in the file it leaves an empty set. */
static int untouched(const double *l, size_t n) {
    for (size_t k = 0; k < n; k++) if (bits_of(l[k]) != bits_of(7.0)) return 0;
    return 1;
}

static void sevens(double *l, size_t n) { for (size_t k = 0; k < n; k++) l[k] = 7.0; }

static int vrq_parameters(void) {
    uint8_t order[WORDS];
    const double *l[9];
    size_t n[9], at = 0;
    for (int k = 0; k < 9; k++) l[k] = floats + at, n[k] = (size_t)head[6 + k], at += n[k];
    if (at > head[5]) return 0;
    for (size_t k = 0; k < n[8]; k++) order[k] = (uint8_t)listed[at - n[8] + k];
    sevens(m, DOMTHELV_M), sevens(sheets, DOMTHELV_SHEETS), memset(orders, 7, sizeof orders);
    uint8_t number = domthelv_vrq_parameters((size_t)head[2], l[0], n[0], l[1], n[1], l[2], n[2], l[3], n[3], l[4], n[4], l[5], n[5], order,
        n[8], l[6], n[6], l[7], n[7], m, DOMTHELV_M, sheets, DOMTHELV_SHEETS, orders, DOMTHELV_ORDERS);
    int kept = 1;
    count = (size_t)head[2];
    if (number != 0) {
        kept = untouched(m, DOMTHELV_M) && untouched(sheets, DOMTHELV_SHEETS);
        for (size_t k = 0; k < DOMTHELV_ORDERS; k++) kept &= orders[k] == 7;
        empty_set();
    }
    uint64_t hash = with_bytes(with_floats(with_lists(START, m, DOMTHELV_M), 2, sheets, DOMTHELV_SHEETS), 3, orders, DOMTHELV_ORDERS);
    return kept && told(number, &hash, 1);
}

static int vr_parameters(void) {
    const double *l[7];
    size_t n[7], at = 0;
    for (int k = 0; k < 7; k++) l[k] = floats + at, n[k] = (size_t)head[6 + k], at += n[k];
    if (at > head[5]) return 0;
    sevens(lists, DOMTHELV_LISTS), sevens(sheets, DOMTHELV_SHEETS);
    uint8_t number = domthelv_vr_parameters((size_t)head[2], l[0], n[0], l[1], n[1], l[2], n[2], l[3], n[3], l[4], n[4], l[5], n[5], l[6], n[6],
        lists, DOMTHELV_LISTS, sheets, DOMTHELV_SHEETS);
    int kept = 1;
    count = (size_t)head[2];
    if (number != 0) {
        kept = untouched(lists, DOMTHELV_LISTS) && untouched(sheets, DOMTHELV_SHEETS);
        empty_set();
    }
    uint64_t hash = with_floats(with_lists(START, lists, DOMTHELV_LISTS), 2, sheets, DOMTHELV_SHEETS);
    return kept && told(number, &hash, 1);
}

#define QUANTUM_SET count, m, DOMTHELV_M, sheets, DOMTHELV_SHEETS, orders, DOMTHELV_ORDERS
#define MIE_SET count, lists, DOMTHELV_LISTS, sheets, DOMTHELV_SHEETS

static int worked(void) {
    double out[8], t = of_bits(head[3]);
    uint8_t spent[3] = {7, 7, 7}, number;
    uint64_t w[9];
    size_t n = (size_t)head[6], i = n, j = (size_t)head[7];
    const double *densities = floats + (n <= WORDS ? n : 0);
    sevens(out, 8);
    switch (head[0]) {
    case 1: return vrq_parameters();
    case 2:
        number = domthelv_vrq_table(QUANTUM_SET, t, table, lent(6, DOMTHELV_TABLE), counts, lent(7, DOMTHELV_COUNTS));
        w[0] = with_floats(START, 4, table, DOMTHELV_TABLE), w[1] = with_bytes(START, 5, counts, DOMTHELV_COUNTS);
        return told(number, w, 2);
    case 3:
        number = domthelv_vrq_energies(QUANTUM_SET, t, floats, n, densities, (size_t)head[7], table, lent(8, DOMTHELV_TABLE), head[4] == 1, out, 3);
        return told_floats(number, out, 3);
    case 4: return vr_parameters();
    case 5:
        number = domthelv_vr_diameters(MIE_SET, t, diameters, n <= DOMTHELV_SIDE ? n : 0);
        w[0] = with_floats(START, 4, diameters, DOMTHELV_SIDE);
        return told(number, w, 1);
    case 6:
        number = domthelv_vr_dispersion(MIE_SET, t, floats, n, densities, (size_t)head[7], diameters, (size_t)head[8], head[4] == 1, out);
        return told_floats(number, out, 1);
    case 7:
        number = domthelv_vrq_energies_ends(QUANTUM_SET, t, floats, n, densities, (size_t)head[7], table, lent(8, DOMTHELV_TABLE), head[4] == 1, out,
            6);
        return told_floats(number, out, 6);
    case 8: return told_floats(domthelv_vrq_diameter_ends(QUANTUM_SET, i, j, t, floats[0], floats[1], out, 2), out, 2);
    case 9:
        number = domthelv_vr_dispersion_ends(MIE_SET, t, floats, n, densities, (size_t)head[7], diameters, (size_t)head[8], head[4] == 1, out, 2);
        return told_floats(number, out, 2);
    case 13: return told_floats(domthelv_vr_diameter_ends(MIE_SET, i, j, t, floats[0], out, 2), out, 2);
    case 14:
        number = domthelv_vrq_radii(QUANTUM_SET, i, j, t, out, 6, spent, 3);
        for (int k = 0; k < 6; k++) w[k] = bits_of(out[k]);
        for (int k = 0; k < 3; k++) w[6 + k] = spent[k];
        return told(number, w, number == 0 ? 9 : 0);
    case 15: return told_floats(domthelv_vr_radius(MIE_SET, i, j, t, out), out, 1);
    default: return 0;
    }
}

static void chains(FILE *file, int quantum) {
    unsigned long chain = 0;
    empty_set();
    while (words(file, head, HEAD) && head[5] <= WORDS && words(file, listed, (size_t)head[5])) {
        for (size_t k = 0; k < head[5]; k++) floats[k] = of_bits(listed[k]);
        if (head[0] == 10) {
            chain++;
            memset(table, 0, sizeof table), memset(counts, 0, sizeof counts), memset(diameters, 0, sizeof diameters);
        } else if ((chain - 1) % each) {
            continue;
        } else if (head[0] == 11 || head[0] == 12) {
            by_hand(quantum);
        } else {
            noted(worked());
        }
    }
}

/* ---- worked cases */

static double f[FLOATS], x[FLOATS], y[FLOATS], x_left[FLOATS], y_left[FLOATS];
static uint8_t b[BYTES], z[BYTES], z_left[BYTES];

static void fill(double *l, const uint64_t *w) {
    for (uint64_t k = w[1]; k < FLOATS && k - w[1] < w[2]; k++) l[k] = of_bits(w[3]);
}

static void fill_bytes(uint8_t *l, const uint64_t *w) {
    for (uint64_t k = w[1]; k < BYTES && k - w[1] < w[2]; k++) l[k] = (uint8_t)w[3];
}

static size_t whole(size_t at) { return (size_t)bits_of(f[at]); }

/* A list: its length at a place, its start 32 places on. None where it is not there. */
static int held(size_t at) { return whole(at + 32) <= FLOATS && whole(at) <= FLOATS - whole(at + 32); }
#define LIST(at) f + (held(at) ? whole(at + 32) : 0), held(at) ? whole(at) : 0
#define BYTE_LIST(from, at) b + (from), whole(at) <= BYTES - (from) ? whole(at) : 0
#define CASE_SET whole(2), LIST(9), LIST(21), BYTE_LIST(16, 24)
#define MIE_CASE_SET whole(2), LIST(20), LIST(21)

static int32_t signed_of(uint64_t n) { return n < 2147483648u ? (int32_t)n : n < 4294967296u ? (int32_t)(-1 - (int64_t)(n - 2147483648u)) : 0; }

static uint8_t order_counts(size_t n) {
    uint64_t out[4];
    if (n > 4) return 255;
    for (size_t k = 0; k < n; k++) out[k] = bits_of(x[k]);
    uint8_t number = domthelv_order_counts(whole(2), out, n);
    for (size_t k = 0; k < n; k++) x[k] = of_bits(out[k]);
    return number;
}

static uint8_t case_called(void) {
    size_t n = whole(25), o = whole(26), c = whole(27);
    double t = f[5], first = f[6], second = f[7];
    bool wanted = whole(8) == 1;
    if (n > FLOATS || o > FLOATS || c > BYTES) return 255;
    switch (whole(0)) {
    case 1: x[0] = domthelv_powi(first, signed_of(bits_of(second))); return 0;
    case 16: return domthelv_vrq_parameters(whole(2), LIST(9), LIST(10), LIST(11), LIST(12), LIST(13), LIST(14), BYTE_LIST(0, 23), LIST(15),
        LIST(16), x, n, y, o, z, c);
    case 17: return domthelv_vrq_table(CASE_SET, t, x, n, z, c);
    case 18: return domthelv_vrq_radii(CASE_SET, whole(3), whole(4), t, x, n, z, c);
    case 19: return domthelv_vrq_energies(CASE_SET, t, LIST(17), LIST(18), LIST(22), wanted, x, n);
    case 20: return domthelv_vrq_energies_ends(CASE_SET, t, LIST(17), LIST(18), LIST(22), wanted, x, n);
    case 21: return domthelv_vrq_diameter(CASE_SET, whole(3), whole(4), t, first, second, x);
    case 22: return domthelv_vrq_diameter_ends(CASE_SET, whole(3), whole(4), t, first, second, x, n);
    case 23: return domthelv_vrq_stage(whole(2), LIST(9), LIST(10), LIST(11), LIST(12), LIST(13), LIST(14), BYTE_LIST(0, 23), LIST(15),
        LIST(16), t, LIST(17), LIST(18), wanted, x, n);
    case 24: return domthelv_vrq_record_m(first);
    case 25: return order_counts(n);
    case 26: return domthelv_vrq_total(CASE_SET, t, LIST(17), LIST(18), LIST(22), wanted, x, n);
    case 32: return domthelv_vr_parameters(whole(2), LIST(9), LIST(10), LIST(11), LIST(12), LIST(13), LIST(15), LIST(16), x, n, y, o);
    case 33: return domthelv_vr_diameters(MIE_CASE_SET, t, x, n);
    case 34: return domthelv_vr_radius(MIE_CASE_SET, whole(3), whole(4), t, x);
    case 35: return domthelv_vr_dispersion(MIE_CASE_SET, t, LIST(17), LIST(18), LIST(19), wanted, x);
    case 36: return domthelv_vr_dispersion_ends(MIE_CASE_SET, t, LIST(17), LIST(18), LIST(19), wanted, x, n);
    case 37: return domthelv_vr_diameter(MIE_CASE_SET, whole(3), whole(4), t, second, x);
    case 38: return domthelv_vr_diameter_ends(MIE_CASE_SET, whole(3), whole(4), t, second, x, n);
    case 39: return domthelv_vr_stage(whole(2), LIST(9), LIST(10), LIST(11), LIST(12), LIST(13), LIST(15), LIST(16), t, LIST(17), LIST(18),
        wanted, x);
    default: return 255;
    }
}

static int as_left(uint8_t number) {
    int same = number == bits_of(f[1]);
    for (size_t k = 0; k < FLOATS; k++) same &= bits_of(x[k]) == bits_of(x_left[k]) && bits_of(y[k]) == bits_of(y_left[k]);
    return same && memcmp(z, z_left, BYTES) == 0;
}

static void cases(FILE *file) {
    uint64_t w[4];
    while (words(file, w, 4)) {
        switch (w[0]) {
        case 1: fill(f, w); break;
        case 2: fill_bytes(b, w); break;
        case 3: fill(x, w), fill(x_left, w); break;
        case 4: fill(y, w), fill(y_left, w); break;
        case 5: fill_bytes(z, w), fill_bytes(z_left, w); break;
        case 6: fill(x_left, w); break;
        case 7: fill(y_left, w); break;
        case 8: fill_bytes(z_left, w); break;
        case 9:
            /* 2 to 8 are functions of the source that the boundary does not have */
            if (whole(0) >= 2 && whole(0) <= 8) left_out++, memcpy(x, x_left, sizeof x);
            else noted(as_left(case_called()));
        }
    }
}

int main(int argc, char **argv) {
    unsigned long before_calls, before_differ, files = 0;
    for (int k = 1; k < argc; k++) {
        if (strcmp(argv[k], "-each") == 0 && k + 1 < argc) {
            each = strtoul(argv[++k], NULL, 10);
            if (each == 0) each = 1;
            continue;
        }
        const char *slash = strrchr(argv[k], '/'), *name = slash ? slash + 1 : argv[k];
        FILE *file = fopen(argv[k], "rb");
        if (!file) return printf("%s: cannot be read\n0 passed, 1 failed\n", argv[k]), 1;
        before_calls = calls, before_differ = differ;
        if (strcmp(name, "vectors.bin") == 0) vectors(file);
        else if (strcmp(name, "cases.bin") == 0) cases(file);
        else chains(file, strncmp(name, "quantum", 7) == 0);
        fclose(file);
        files++;
        printf("%s: %lu calls, %lu differ\n", name, calls - before_calls, differ - before_differ);
        if (calls == before_calls) return printf("nothing was replayed\n0 passed, 1 failed\n"), 1;
    }
    if (left_out) printf("%lu calls of functions that the boundary does not have were left out\n", left_out);
    printf("%lu passed, %lu failed\n", calls - differ, differ);
    return differ != 0 || files == 0;
}
