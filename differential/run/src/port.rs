//! The C boundary of the port, as include/domthelv.h declares it; a function that the library has not yet is None.
//! A slice is a pointer and a length.

type In = *const f64;
type Out = *mut f64;
type BytesIn = *const u8;
type BytesOut = *mut u8;
type WholesOut = *mut u64;
type Len = usize;
type CountOut = *mut usize;

/// The energies and their ends are called alike.
#[rustfmt::skip]
pub type Energies = unsafe extern "C" fn(
    usize, In, Len, In, Len, BytesIn, Len, f64, In, Len, In, Len, In, Len, bool, Out, Len,
) -> u8;

/// A tank's energies and their ends are called alike.
#[rustfmt::skip]
pub type Tank = unsafe extern "C" fn(
    usize, In, Len, In, Len, BytesIn, Len, usize, In, Len, In, Len, In, Len, In, Len, bool, Out, Len,
) -> u8;

macro_rules! boundary {
    ($($name:ident = $symbol:ident($($t:ty),* $(,)?);)*) => {
        #[cfg_attr(not(feature = "unproved"), link(name = "domthelv", kind = "static"))]
        unsafe extern "C" {
            fn domthelv_powi(x: f64, n: i32) -> f64;
            $( #[cfg($symbol)] fn $symbol($(_: $t),*) -> u8; )*
        }
        $(
            #[cfg($symbol)]
            pub const $name: Option<unsafe extern "C" fn($($t),*) -> u8> = Some($symbol);
            #[cfg(not($symbol))]
            pub const $name: Option<unsafe extern "C" fn($($t),*) -> u8> = None;
        )*
        /// Name, and whether the library has it.
        pub const ALL: &[(&str, bool)] = &[$((stringify!($symbol), $name.is_some())),*];
    };
}

boundary! {
    SQRT = domthelv_sqrt(f64, Out);
    LN = domthelv_ln(f64, Out);
    LN_1P = domthelv_ln_1p(f64, Out);
    EXP = domthelv_exp(f64, Out);
    EXP_M1 = domthelv_exp_m1(f64, Out);
    TANH = domthelv_tanh(f64, Out);
    POWF = domthelv_powf(f64, f64, Out);
    VRQ_RECORD_M = domthelv_vrq_record_m(f64);
    // count; out: how many pass, meet 4, meet 5
    ORDER_COUNTS = domthelv_order_counts(usize, WholesOut, Len);
    // card; model, count, set_m, set_lists, set_sheets, set_orders
    CARD_PARAMETERS = domthelv_card_parameters(BytesIn, Len, BytesOut, CountOut, Out, Len, Out, Len, Out, Len, BytesOut, Len);
    NEWER_CARD_PARAMETERS = domthelv_newer_card_parameters(
        BytesIn, Len, BytesOut, CountOut, Out, Len, Out, Len, Out, Len, BytesOut, Len,
    );
    // count, m, sigma, epsilon_k, lr, la, mass, order, k_ij, l_ij; card, length
    VRQ_CARD = domthelv_vrq_card(
        usize, In, Len, In, Len, In, Len, In, Len, In, Len, In, Len, BytesIn, Len, In, Len, In, Len, BytesOut, Len, CountOut,
    );
    // count, m, sigma, epsilon_k, lr, la, k_ij, gamma_ij; card, length
    VR_CARD = domthelv_vr_card(
        usize, In, Len, In, Len, In, Len, In, Len, In, Len, In, Len, In, Len, BytesOut, Len, CountOut,
    );
    // card; the moved card, its length
    CARD_TO_NEWER = domthelv_card_to_newer(BytesIn, Len, BytesOut, Len, CountOut);
    CARD_TO_OLDER = domthelv_card_to_older(BytesIn, Len, BytesOut, Len, CountOut);
    // count, m, sigma, epsilon_k, lr, la, mass, order, k_ij, l_ij; set_m, set_sheets, set_orders
    VRQ_PARAMETERS = domthelv_vrq_parameters(
        usize, In, Len, In, Len, In, Len, In, Len, In, Len, In, Len, BytesIn, Len, In, Len, In, Len,
        Out, Len, Out, Len, BytesOut, Len,
    );
    // count, m, sheets, orders, temperature; table, counts
    VRQ_TABLE = domthelv_vrq_table(usize, In, Len, In, Len, BytesIn, Len, f64, Out, Len, BytesOut, Len);
    // count, m, sheets, orders, i, j, temperature; out, counts
    VRQ_RADII = domthelv_vrq_radii(usize, In, Len, In, Len, BytesIn, Len, usize, usize, f64, Out, Len, BytesOut, Len);
    // count, m, sheets, orders, temperature, fractions, densities, table, non_additive; out
    VRQ_ENERGIES = domthelv_vrq_energies(
        usize, In, Len, In, Len, BytesIn, Len, f64, In, Len, In, Len, In, Len, bool, Out, Len,
    );
    // the same; out: two sums, each with its remainder
    VRQ_TOTAL = domthelv_vrq_total(
        usize, In, Len, In, Len, BytesIn, Len, f64, In, Len, In, Len, In, Len, bool, Out, Len,
    );
    // the same; out: low and high end of each
    VRQ_ENERGIES_ENDS = domthelv_vrq_energies_ends(
        usize, In, Len, In, Len, BytesIn, Len, f64, In, Len, In, Len, In, Len, bool, Out, Len,
    );
    // count, m, sheets, orders, layers, temperatures, fractions, densities, volumes, non_additive; out
    VRQ_TANK = domthelv_vrq_tank(
        usize, In, Len, In, Len, BytesIn, Len, usize, In, Len, In, Len, In, Len, In, Len, bool, Out, Len,
    );
    // the same; out: low and high end of each
    VRQ_TANK_ENDS = domthelv_vrq_tank_ends(
        usize, In, Len, In, Len, BytesIn, Len, usize, In, Len, In, Len, In, Len, In, Len, bool, Out, Len,
    );
    // count, m, sheets, orders, temperature and its slope, fractions and their slopes, densities and their slopes, non_additive; out
    VRQ_ENERGIES_SLOPES = domthelv_vrq_energies_slopes(
        usize, In, Len, In, Len, BytesIn, Len, f64, f64, In, Len, In, Len, In, Len, In, Len, bool, Out, Len,
    );
    // count, m, sheets, orders, i, j, temperature, sigma_eff, r0; out
    VRQ_DIAMETER = domthelv_vrq_diameter(usize, In, Len, In, Len, BytesIn, Len, usize, usize, f64, f64, f64, Out);
    // the same; out: low and high end
    VRQ_DIAMETER_ENDS = domthelv_vrq_diameter_ends(
        usize, In, Len, In, Len, BytesIn, Len, usize, usize, f64, f64, f64, Out, Len,
    );
    // count, m, sigma, epsilon_k, lr, la, mass, order, k_ij, l_ij, temperature, fractions, densities, non_additive; out
    VRQ_STAGE = domthelv_vrq_stage(
        usize, In, Len, In, Len, In, Len, In, Len, In, Len, In, Len, BytesIn, Len, In, Len, In, Len,
        f64, In, Len, In, Len, bool, Out, Len,
    );
    // count, m, sigma, epsilon_k, lr, la, k_ij, gamma_ij; set_lists, set_sheets
    VR_PARAMETERS = domthelv_vr_parameters(
        usize, In, Len, In, Len, In, Len, In, Len, In, Len, In, Len, In, Len, Out, Len, Out, Len,
    );
    // floats, bytes
    DESK_BEGIN = domthelv_desk_begin(Out, Len, BytesOut, Len);
    // floats, bytes, count, m, sheets, orders, temperature, fractions, densities, non_additive; place
    DESK_SUBMIT = domthelv_desk_submit(
        Out, Len, BytesOut, Len, usize, In, Len, In, Len, BytesIn, Len, f64, In, Len, In, Len, bool, CountOut,
    );
    // floats, bytes; outcome, place, number, out
    DESK_SERVE = domthelv_desk_serve(Out, Len, BytesOut, Len, BytesOut, CountOut, BytesOut, Out, Len);
    // count, lists, sheets, temperature; diameters
    VR_DIAMETERS = domthelv_vr_diameters(usize, In, Len, In, Len, f64, Out, Len);
    // count, lists, sheets, i, j, temperature; out
    VR_RADIUS = domthelv_vr_radius(usize, In, Len, In, Len, usize, usize, f64, Out);
    // count, lists, sheets, i, j, temperature, r0; out
    VR_DIAMETER = domthelv_vr_diameter(usize, In, Len, In, Len, usize, usize, f64, f64, Out);
    // count, lists, sheets, temperature, fractions, densities, diameters, chain; out
    VR_DISPERSION = domthelv_vr_dispersion(usize, In, Len, In, Len, f64, In, Len, In, Len, In, Len, bool, Out);
    // the same; out: low and high end
    VR_DISPERSION_ENDS = domthelv_vr_dispersion_ends(
        usize, In, Len, In, Len, f64, In, Len, In, Len, In, Len, bool, Out, Len,
    );
    // count, lists, sheets, i, j, temperature, r0; out: low and high end
    VR_DIAMETER_ENDS = domthelv_vr_diameter_ends(usize, In, Len, In, Len, usize, usize, f64, f64, Out, Len);
    // count, m, sigma, epsilon_k, lr, la, k_ij, gamma_ij, temperature, fractions, densities, chain; out
    VR_STAGE = domthelv_vr_stage(
        usize, In, Len, In, Len, In, Len, In, Len, In, Len, In, Len, In, Len, f64, In, Len, In, Len, bool, Out,
    );
}

pub fn powi(x: f64, n: i32) -> f64 {
    unsafe { domthelv_powi(x, n) }
}
