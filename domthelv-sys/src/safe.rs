//! The operations on slices. A refused call writes nothing.
//!
//! Temperatures are in kelvin, lengths in ångström, densities per cubic ångström, masses in kilograms; energies are densities of
//! the reduced Helmholtz energy, per cubic ångström. Functions are small and inlined, so that only those in use are linked.
use crate::raw;
use crate::sizes::{COUNTS, DESK_BYTES, DESK_FLOATS, LISTS, NEWER_CARD, SHEET, SHEETS, SIDE, TABLE};

/// Why a call was refused. The first that applies is given.
#[repr(u8)]
#[derive(Clone, Copy, Debug, PartialEq, Eq, Hash)]
pub enum Refusal {
    /// A count or a list's length is outside: 1 to [`SIDE`] components, lists as long as the count, pair lists its square, indexes below it.
    Length = 1,
    /// A number is outside its limit.
    Limit = 2,
    /// An m of the quantum model is not 1.
    SegmentNumber = 3,
    /// A Feynman-Hibbs order is above 2.
    Order = 4,
    /// The orders 1 and 2 meet in a pair.
    MixedOrders = 5,
    /// An elementary function's argument is outside its domain.
    Domain = 6,
    /// A result is not finite.
    NotFinite = 7,
    /// Two ends cannot be given: a divisor's ends enclose or touch zero, or an end is not finite.
    NoEnds = 8,
    /// A card is too short for the field in hand.
    ShortCard = 9,
    /// A card's model is not known, or its count is outside.
    CardHeading = 10,
    /// A filling bit of a card is 1, or bytes are left over.
    CardFilling = 11,
    /// A lent list is shorter than the card that it is to hold.
    ShortList = 12,
    /// A tank's layer count is outside 1 to 32.
    Layers = 14,
    /// A newer card stores a pair's +0.
    StoredZero = 15,
    /// More components than an older card holds.
    TooMany = 16,
    /// All places of a desk are occupied.
    DeskFull = 17,
}

impl Refusal {
    /// The refusal of a number that the boundary gives; 0 is none, and others are never given.
    pub fn of(number: u8) -> Option<Refusal> {
        use Refusal::*;
        #[rustfmt::skip]
        let all = [
            Length, Limit, SegmentNumber, Order, MixedOrders, Domain, NotFinite, NoEnds, ShortCard, CardHeading, CardFilling, ShortList,
            Layers, StoredZero, TooMany, DeskFull,
        ];
        all.into_iter().find(|r| *r as u8 == number)
    }
    pub fn number(self) -> u8 {
        self as u8
    }
}

impl core::fmt::Display for Refusal {
    fn fmt(&self, f: &mut core::fmt::Formatter<'_>) -> core::fmt::Result {
        let text = match self {
            Refusal::Length => "a count or a list's length is outside",
            Refusal::Limit => "a number is outside its limit",
            Refusal::SegmentNumber => "an m of the quantum model is not 1",
            Refusal::Order => "an order is above 2",
            Refusal::MixedOrders => "orders 1 and 2 meet in a pair",
            Refusal::Domain => "an elementary function's argument is outside its domain",
            Refusal::NotFinite => "a result is not finite",
            Refusal::NoEnds => "two ends cannot be given",
            Refusal::ShortCard => "a card is too short for the field in hand",
            Refusal::CardHeading => "a card's model is not known, or its count is outside",
            Refusal::CardFilling => "a filling bit of a card is 1, or bytes are left over",
            Refusal::ShortList => "a lent list is shorter than the card that it is to hold",
            Refusal::Layers => "a tank's layer count is outside",
            Refusal::StoredZero => "a newer card stores a pair's +0",
            Refusal::TooMany => "more components than an older card holds",
            Refusal::DeskFull => "all places of a desk are occupied",
        };
        write!(f, "refused ({}): {text}", self.number())
    }
}
impl core::error::Error for Refusal {}

#[inline]
fn given<T>(number: u8, value: T) -> Result<T, Refusal> {
    match number {
        0 => Ok(value),
        n => Err(Refusal::of(n).expect("a number that the boundary does not give")),
    }
}

// ---- elementary functions

macro_rules! elementary {
    ($($(#[$doc:meta])* $name:ident $raw:ident;)*) => {$(
        $(#[$doc])*
        #[inline]
        pub fn $name(x: f64) -> Result<f64, Refusal> {
            let mut out = 0.0;
            let number = unsafe { raw::$raw(x, &mut out) };
            given(number, out)
        }
    )*};
}
elementary! {
    /// Correctly rounded; x from 0 up, finite.
    sqrt domthelv_sqrt;
    /// x positive, normal, finite.
    ln domthelv_ln;
    /// x above -1, at most 2^20.
    ln_1p domthelv_ln_1p;
    /// x from -700 to 700.
    exp domthelv_exp;
    /// x from -700 to 700.
    exp_m1 domthelv_exp_m1;
    /// x from -350 to 350.
    tanh domthelv_tanh;
}
/// Base from 1/32 to 32, exponent from -192 to 192.
#[inline]
pub fn powf(base: f64, exponent: f64) -> Result<f64, Refusal> {
    let mut out = 0.0;
    let number = unsafe { raw::domthelv_powf(base, exponent, &mut out) };
    given(number, out)
}
/// The whole power, by the binary digits of |n| from the lowest; 1 divided by that for a negative n.
#[inline]
pub fn powi(x: f64, n: i32) -> f64 {
    unsafe { raw::domthelv_powi(x, n) }
}

// ---- what is handed in and out

/// Lists of the components, each as long as the count, and pair lists of its square.
#[derive(Clone, Copy, Debug)]
pub struct QuantumComponents<'a> {
    /// Segments: 1 each.
    pub m: &'a [f64],
    pub sigma: &'a [f64],
    pub epsilon_k: &'a [f64],
    pub lr: &'a [f64],
    pub la: &'a [f64],
    pub mass: &'a [f64],
    /// Feynman-Hibbs orders, 0 to 2.
    pub order: &'a [u8],
    pub k_ij: &'a [f64],
    pub l_ij: &'a [f64],
}

#[derive(Clone, Copy, Debug)]
pub struct MieComponents<'a> {
    pub m: &'a [f64],
    pub sigma: &'a [f64],
    pub epsilon_k: &'a [f64],
    pub lr: &'a [f64],
    pub la: &'a [f64],
    pub k_ij: &'a [f64],
    pub gamma_ij: &'a [f64],
}

/// A state: mole fractions need not sum to one.
#[derive(Clone, Copy, Debug)]
pub struct State<'a> {
    pub temperature: f64,
    pub fractions: &'a [f64],
    pub densities: &'a [f64],
}

/// A quantum set. Entry (i, j) of a sheet stands at `SIDE` i + j; sheets are sigma, epsilon_k, c, lambda_r, lambda_a, mass.
/// Places of pairs beyond the count are not looked at; an order above 2 within it is refused after every wrong count, length or index.
#[derive(Clone, Debug)]
pub struct QuantumSet {
    pub count: usize,
    pub m: [f64; SIDE],
    pub sheets: [f64; SHEETS],
    pub orders: [u8; SHEET],
}

/// A set of SAFT-VR Mie: m, sigma, epsilon_k, lr, la, `SIDE` places each; sheets sigma, epsilon_k, lr, la, c, alpha.
#[derive(Clone, Debug)]
pub struct MieSet {
    pub count: usize,
    pub lists: [f64; LISTS],
    pub sheets: [f64; SHEETS],
}

/// Sheets sigma_eff, hs_diameter, epsilon_k_eff, quantum_d; counts of the searches for sigma, zero, depth, 20 where one was spent.
#[derive(Clone, Debug)]
pub struct Table {
    pub values: [f64; TABLE],
    pub counts: [u8; COUNTS],
}

/// A pair's three searches: radius and last potential of each, and its count.
#[derive(Clone, Copy, Debug, PartialEq)]
pub struct Searches {
    pub sigma: [f64; 2],
    pub zero: [f64; 2],
    pub depth: [f64; 2],
    pub counts: [u8; 3],
}

#[derive(Clone, Copy, Debug, PartialEq)]
pub struct Energies {
    pub hard_sphere: f64,
    pub dispersion: f64,
    /// +0 where it was not wanted.
    pub non_additive: f64,
}

/// A rounded sum and what the rounding left; together they are exact.
#[derive(Clone, Copy, Debug, PartialEq)]
pub struct RoundedSum {
    pub sum: f64,
    /// +0 where nothing is left.
    pub remainder: f64,
}

/// The energies as one number.
#[derive(Clone, Copy, Debug, PartialEq)]
pub struct Total {
    /// Hard sphere and dispersion.
    pub first: RoundedSum,
    /// That and the non-additive part; where it was not wanted, the first sum and +0.
    pub last: RoundedSum,
}

/// A tank at rest: a temperature and a volume (cubic angstrom) for each layer, from the bottom up; fractions and densities for each
/// component, layer by layer.
#[derive(Clone, Copy, Debug)]
pub struct Layers<'a> {
    pub temperatures: &'a [f64],
    pub fractions: &'a [f64],
    pub densities: &'a [f64],
    pub volumes: &'a [f64],
}

/// The slope of each number of a [`State`].
#[derive(Clone, Copy, Debug)]
pub struct StateSlopes<'a> {
    pub temperature: f64,
    pub fractions: &'a [f64],
    pub densities: &'a [f64],
}

/// A value and its slope.
#[derive(Clone, Copy, Debug, PartialEq)]
pub struct Sloped {
    pub value: f64,
    pub slope: f64,
}

#[derive(Clone, Copy, Debug, PartialEq)]
pub struct EnergiesSlopes {
    pub hard_sphere: Sloped,
    pub dispersion: Sloped,
    /// +0 with slope +0 where it was not wanted.
    pub non_additive: Sloped,
}

/// Two ends that enclose the float result and the exact one.
#[derive(Clone, Copy, Debug, PartialEq)]
pub struct Ends {
    pub low: f64,
    pub high: f64,
}

#[derive(Clone, Copy, Debug, PartialEq)]
pub struct EnergiesEnds {
    pub hard_sphere: Ends,
    pub dispersion: Ends,
    pub non_additive: Ends,
}

// ---- quantum model (SAFT-VRQ Mie)

/// Whether a record's m is one that the quantum model takes.
#[inline]
pub fn quantum_record_m(m: f64) -> Result<(), Refusal> {
    given(unsafe { raw::domthelv_vrq_record_m(m) }, ())
}

/// How many lists of orders 0 to 3, one for each component, pass the walk over the pairs, meet [`Refusal::Order`] and meet [`Refusal::MixedOrders`].
#[derive(Clone, Copy, Debug, PartialEq, Eq)]
pub struct OrderCounts {
    pub passing: u64,
    pub order: u64,
    pub mixed_orders: u64,
}

/// How the 4^count order lists fall, where all else is within limits.
#[inline]
pub fn quantum_order_counts(count: usize) -> Result<OrderCounts, Refusal> {
    let mut out = [0; 3];
    let number = unsafe { raw::domthelv_order_counts(count, out.as_mut_ptr(), out.len()) };
    let [passing, order, mixed_orders] = out;
    given(number, OrderCounts { passing, order, mixed_orders })
}

/// The set of some components.
#[inline]
pub fn quantum_parameters(c: &QuantumComponents) -> Result<QuantumSet, Refusal> {
    let mut s = QuantumSet { count: c.m.len(), m: [0.0; SIDE], sheets: [0.0; SHEETS], orders: [0; SHEET] };
    #[rustfmt::skip]
    let number = unsafe {
        raw::domthelv_vrq_parameters(
            s.count, c.m.as_ptr(), c.m.len(), c.sigma.as_ptr(), c.sigma.len(), c.epsilon_k.as_ptr(), c.epsilon_k.len(),
            c.lr.as_ptr(), c.lr.len(), c.la.as_ptr(), c.la.len(), c.mass.as_ptr(), c.mass.len(), c.order.as_ptr(), c.order.len(),
            c.k_ij.as_ptr(), c.k_ij.len(), c.l_ij.as_ptr(), c.l_ij.len(), s.m.as_mut_ptr(), SIDE, s.sheets.as_mut_ptr(), SHEETS,
            s.orders.as_mut_ptr(), SHEET,
        )
    };
    given(number, s)
}

/// From components to energies, with a table of its own.
#[inline]
pub fn quantum_stage(c: &QuantumComponents, s: &State, non_additive: bool) -> Result<Energies, Refusal> {
    let mut out = [0.0; 3];
    #[rustfmt::skip]
    let number = unsafe {
        raw::domthelv_vrq_stage(
            c.m.len(), c.m.as_ptr(), c.m.len(), c.sigma.as_ptr(), c.sigma.len(), c.epsilon_k.as_ptr(), c.epsilon_k.len(),
            c.lr.as_ptr(), c.lr.len(), c.la.as_ptr(), c.la.len(), c.mass.as_ptr(), c.mass.len(), c.order.as_ptr(), c.order.len(),
            c.k_ij.as_ptr(), c.k_ij.len(), c.l_ij.as_ptr(), c.l_ij.len(), s.temperature, s.fractions.as_ptr(), s.fractions.len(),
            s.densities.as_ptr(), s.densities.len(), non_additive, out.as_mut_ptr(), 3,
        )
    };
    given(number, Energies { hard_sphere: out[0], dispersion: out[1], non_additive: out[2] })
}

impl QuantumSet {
    /// The temperature table.
    #[inline]
    pub fn table(&self, temperature: f64) -> Result<Table, Refusal> {
        let mut t = Table { values: [0.0; TABLE], counts: [0; COUNTS] };
        #[rustfmt::skip]
        let number = unsafe {
            raw::domthelv_vrq_table(
                self.count, self.m.as_ptr(), SIDE, self.sheets.as_ptr(), SHEETS, self.orders.as_ptr(), SHEET, temperature,
                t.values.as_mut_ptr(), TABLE, t.counts.as_mut_ptr(), COUNTS,
            )
        };
        given(number, t)
    }

    /// The three searches of a pair.
    #[inline]
    pub fn radii(&self, i: usize, j: usize, temperature: f64) -> Result<Searches, Refusal> {
        let (mut out, mut counts) = ([0.0; 6], [0; 3]);
        #[rustfmt::skip]
        let number = unsafe {
            raw::domthelv_vrq_radii(
                self.count, self.m.as_ptr(), SIDE, self.sheets.as_ptr(), SHEETS, self.orders.as_ptr(), SHEET, i, j, temperature,
                out.as_mut_ptr(), 6, counts.as_mut_ptr(), 3,
            )
        };
        given(number, Searches { sigma: [out[0], out[1]], zero: [out[2], out[3]], depth: [out[4], out[5]], counts })
    }

    /// Energies from a table ([`TABLE`] floats) that was made or filled by hand.
    #[inline]
    pub fn energies(&self, s: &State, table: &[f64], non_additive: bool) -> Result<Energies, Refusal> {
        let mut out = [0.0; 3];
        #[rustfmt::skip]
        let number = unsafe {
            raw::domthelv_vrq_energies(
                self.count, self.m.as_ptr(), SIDE, self.sheets.as_ptr(), SHEETS, self.orders.as_ptr(), SHEET, s.temperature,
                s.fractions.as_ptr(), s.fractions.len(), s.densities.as_ptr(), s.densities.len(), table.as_ptr(), table.len(),
                non_additive, out.as_mut_ptr(), 3,
            )
        };
        given(number, Energies { hard_sphere: out[0], dispersion: out[1], non_additive: out[2] })
    }

    /// The energies as one number, with what each rounded sum left.
    #[inline]
    pub fn total(&self, s: &State, table: &[f64], non_additive: bool) -> Result<Total, Refusal> {
        let mut out = [0.0; 4];
        #[rustfmt::skip]
        let number = unsafe {
            raw::domthelv_vrq_total(
                self.count, self.m.as_ptr(), SIDE, self.sheets.as_ptr(), SHEETS, self.orders.as_ptr(), SHEET, s.temperature,
                s.fractions.as_ptr(), s.fractions.len(), s.densities.as_ptr(), s.densities.len(), table.as_ptr(), table.len(),
                non_additive, out.as_mut_ptr(), 4,
            )
        };
        let at = |k: usize| RoundedSum { sum: out[2 * k], remainder: out[2 * k + 1] };
        given(number, Total { first: at(0), last: at(1) })
    }

    /// Two ends of the energies.
    #[inline]
    pub fn energies_ends(&self, s: &State, table: &[f64], non_additive: bool) -> Result<EnergiesEnds, Refusal> {
        let mut out = [0.0; 6];
        #[rustfmt::skip]
        let number = unsafe {
            raw::domthelv_vrq_energies_ends(
                self.count, self.m.as_ptr(), SIDE, self.sheets.as_ptr(), SHEETS, self.orders.as_ptr(), SHEET, s.temperature,
                s.fractions.as_ptr(), s.fractions.len(), s.densities.as_ptr(), s.densities.len(), table.as_ptr(), table.len(),
                non_additive, out.as_mut_ptr(), 6,
            )
        };
        let at = |k: usize| Ends { low: out[2 * k], high: out[2 * k + 1] };
        given(number, EnergiesEnds { hard_sphere: at(0), dispersion: at(1), non_additive: at(2) })
    }

    /// The energies of a tank in layers, each by its own table, multiplied by its volume and its temperature, and added.
    #[inline]
    pub fn tank(&self, t: &Layers, non_additive: bool) -> Result<Energies, Refusal> {
        let mut out = [0.0; 3];
        #[rustfmt::skip]
        let number = unsafe {
            raw::domthelv_vrq_tank(
                self.count, self.m.as_ptr(), SIDE, self.sheets.as_ptr(), SHEETS, self.orders.as_ptr(), SHEET, t.temperatures.len(),
                t.temperatures.as_ptr(), t.temperatures.len(), t.fractions.as_ptr(), t.fractions.len(), t.densities.as_ptr(),
                t.densities.len(), t.volumes.as_ptr(), t.volumes.len(), non_additive, out.as_mut_ptr(), 3,
            )
        };
        let [hard_sphere, dispersion, non_additive] = out;
        given(number, Energies { hard_sphere, dispersion, non_additive })
    }

    /// Two ends of the energies of a tank.
    #[inline]
    pub fn tank_ends(&self, t: &Layers, non_additive: bool) -> Result<EnergiesEnds, Refusal> {
        let mut out = [0.0; 6];
        #[rustfmt::skip]
        let number = unsafe {
            raw::domthelv_vrq_tank_ends(
                self.count, self.m.as_ptr(), SIDE, self.sheets.as_ptr(), SHEETS, self.orders.as_ptr(), SHEET, t.temperatures.len(),
                t.temperatures.as_ptr(), t.temperatures.len(), t.fractions.as_ptr(), t.fractions.len(), t.densities.as_ptr(),
                t.densities.len(), t.volumes.as_ptr(), t.volumes.len(), non_additive, out.as_mut_ptr(), 6,
            )
        };
        let at = |k: usize| Ends { low: out[2 * k], high: out[2 * k + 1] };
        given(number, EnergiesEnds { hard_sphere: at(0), dispersion: at(1), non_additive: at(2) })
    }

    /// Energies with slopes, from a table of the call's own with slopes.
    #[inline]
    pub fn energies_slopes(&self, s: &State, slopes: &StateSlopes, non_additive: bool) -> Result<EnergiesSlopes, Refusal> {
        let mut out = [0.0; 6];
        #[rustfmt::skip]
        let number = unsafe {
            raw::domthelv_vrq_energies_slopes(
                self.count, self.m.as_ptr(), SIDE, self.sheets.as_ptr(), SHEETS, self.orders.as_ptr(), SHEET, s.temperature,
                slopes.temperature, s.fractions.as_ptr(), s.fractions.len(), slopes.fractions.as_ptr(), slopes.fractions.len(),
                s.densities.as_ptr(), s.densities.len(), slopes.densities.as_ptr(), slopes.densities.len(), non_additive,
                out.as_mut_ptr(), 6,
            )
        };
        let at = |k: usize| Sloped { value: out[2 * k], slope: out[2 * k + 1] };
        given(number, EnergiesSlopes { hard_sphere: at(0), dispersion: at(1), non_additive: at(2) })
    }

    /// A pair's diameter from its searched radii.
    #[inline]
    pub fn diameter(&self, i: usize, j: usize, temperature: f64, sigma_eff: f64, r0: f64) -> Result<f64, Refusal> {
        let mut out = 0.0;
        #[rustfmt::skip]
        let number = unsafe {
            raw::domthelv_vrq_diameter(
                self.count, self.m.as_ptr(), SIDE, self.sheets.as_ptr(), SHEETS, self.orders.as_ptr(), SHEET, i, j, temperature, sigma_eff,
                r0, &mut out,
            )
        };
        given(number, out)
    }

    /// Two ends of the same.
    #[inline]
    pub fn diameter_ends(&self, i: usize, j: usize, temperature: f64, sigma_eff: f64, r0: f64) -> Result<Ends, Refusal> {
        let mut out = [0.0; 2];
        #[rustfmt::skip]
        let number = unsafe {
            raw::domthelv_vrq_diameter_ends(
                self.count, self.m.as_ptr(), SIDE, self.sheets.as_ptr(), SHEETS, self.orders.as_ptr(), SHEET, i, j, temperature, sigma_eff,
                r0, out.as_mut_ptr(), 2,
            )
        };
        given(number, Ends { low: out[0], high: out[1] })
    }
}

// ---- SAFT-VR Mie

/// The set of some components.
#[inline]
pub fn mie_parameters(c: &MieComponents) -> Result<MieSet, Refusal> {
    let mut s = MieSet { count: c.m.len(), lists: [0.0; LISTS], sheets: [0.0; SHEETS] };
    #[rustfmt::skip]
    let number = unsafe {
        raw::domthelv_vr_parameters(
            s.count, c.m.as_ptr(), c.m.len(), c.sigma.as_ptr(), c.sigma.len(), c.epsilon_k.as_ptr(), c.epsilon_k.len(),
            c.lr.as_ptr(), c.lr.len(), c.la.as_ptr(), c.la.len(), c.k_ij.as_ptr(), c.k_ij.len(), c.gamma_ij.as_ptr(),
            c.gamma_ij.len(), s.lists.as_mut_ptr(), LISTS, s.sheets.as_mut_ptr(), SHEETS,
        )
    };
    given(number, s)
}

/// From components to the dispersion, with the chain where it is wanted; the diameters are worked on the way.
#[inline]
pub fn mie_stage(c: &MieComponents, s: &State, chain: bool) -> Result<f64, Refusal> {
    let mut out = 0.0;
    #[rustfmt::skip]
    let number = unsafe {
        raw::domthelv_vr_stage(
            c.m.len(), c.m.as_ptr(), c.m.len(), c.sigma.as_ptr(), c.sigma.len(), c.epsilon_k.as_ptr(), c.epsilon_k.len(),
            c.lr.as_ptr(), c.lr.len(), c.la.as_ptr(), c.la.len(), c.k_ij.as_ptr(), c.k_ij.len(), c.gamma_ij.as_ptr(),
            c.gamma_ij.len(), s.temperature, s.fractions.as_ptr(), s.fractions.len(), s.densities.as_ptr(), s.densities.len(), chain,
            &mut out,
        )
    };
    given(number, out)
}

impl MieSet {
    /// The components' diameters into a list as long as the count.
    #[inline]
    pub fn diameters(&self, temperature: f64, out: &mut [f64]) -> Result<(), Refusal> {
        #[rustfmt::skip]
        let number = unsafe {
            raw::domthelv_vr_diameters(
                self.count, self.lists.as_ptr(), LISTS, self.sheets.as_ptr(), SHEETS, temperature, out.as_mut_ptr(), out.len(),
            )
        };
        given(number, ())
    }

    /// A pair's reduced r0, the lower limit of its diameter's integral.
    #[inline]
    pub fn radius(&self, i: usize, j: usize, temperature: f64) -> Result<f64, Refusal> {
        let mut out = 0.0;
        #[rustfmt::skip]
        let number = unsafe {
            raw::domthelv_vr_radius(self.count, self.lists.as_ptr(), LISTS, self.sheets.as_ptr(), SHEETS, i, j, temperature, &mut out)
        };
        given(number, out)
    }

    /// Dispersion, with the chain where it is wanted, from diameters.
    #[inline]
    pub fn dispersion(&self, s: &State, diameters: &[f64], chain: bool) -> Result<f64, Refusal> {
        let mut out = 0.0;
        #[rustfmt::skip]
        let number = unsafe {
            raw::domthelv_vr_dispersion(
                self.count, self.lists.as_ptr(), LISTS, self.sheets.as_ptr(), SHEETS, s.temperature, s.fractions.as_ptr(),
                s.fractions.len(), s.densities.as_ptr(), s.densities.len(), diameters.as_ptr(), diameters.len(), chain, &mut out,
            )
        };
        given(number, out)
    }

    /// Two ends of the same.
    #[inline]
    pub fn dispersion_ends(&self, s: &State, diameters: &[f64], chain: bool) -> Result<Ends, Refusal> {
        let mut out = [0.0; 2];
        #[rustfmt::skip]
        let number = unsafe {
            raw::domthelv_vr_dispersion_ends(
                self.count, self.lists.as_ptr(), LISTS, self.sheets.as_ptr(), SHEETS, s.temperature, s.fractions.as_ptr(),
                s.fractions.len(), s.densities.as_ptr(), s.densities.len(), diameters.as_ptr(), diameters.len(), chain,
                out.as_mut_ptr(), 2,
            )
        };
        given(number, Ends { low: out[0], high: out[1] })
    }

    /// A pair's diameter from its reduced r0.
    #[inline]
    pub fn diameter(&self, i: usize, j: usize, temperature: f64, r0: f64) -> Result<f64, Refusal> {
        let mut out = 0.0;
        #[rustfmt::skip]
        let number = unsafe {
            raw::domthelv_vr_diameter(self.count, self.lists.as_ptr(), LISTS, self.sheets.as_ptr(), SHEETS, i, j, temperature, r0, &mut out)
        };
        given(number, out)
    }

    /// Two ends of the same.
    #[inline]
    pub fn diameter_ends(&self, i: usize, j: usize, temperature: f64, r0: f64) -> Result<Ends, Refusal> {
        let mut out = [0.0; 2];
        #[rustfmt::skip]
        let number = unsafe {
            raw::domthelv_vr_diameter_ends(
                self.count, self.lists.as_ptr(), LISTS, self.sheets.as_ptr(), SHEETS, i, j, temperature, r0, out.as_mut_ptr(), 2,
            )
        };
        given(number, Ends { low: out[0], high: out[1] })
    }
}

// ---- the fuel card

/// The set that a card holds.
#[derive(Clone, Debug)]
pub enum CardSet {
    Quantum(QuantumSet),
    Mie(MieSet),
}

/// A card's bytes, of either form, in an array of their own.
#[derive(Clone, Debug, PartialEq, Eq)]
pub struct Card {
    bytes: [u8; NEWER_CARD],
    length: usize,
}

impl Card {
    #[inline]
    pub fn bytes(&self) -> &[u8] {
        &self.bytes[..self.length]
    }
}

/// The card of some components, at most eight.
#[inline]
pub fn quantum_card(c: &QuantumComponents) -> Result<Card, Refusal> {
    let mut card = Card { bytes: [0; NEWER_CARD], length: 0 };
    #[rustfmt::skip]
    let number = unsafe {
        raw::domthelv_vrq_card(
            c.m.len(), c.m.as_ptr(), c.m.len(), c.sigma.as_ptr(), c.sigma.len(), c.epsilon_k.as_ptr(), c.epsilon_k.len(),
            c.lr.as_ptr(), c.lr.len(), c.la.as_ptr(), c.la.len(), c.mass.as_ptr(), c.mass.len(), c.order.as_ptr(), c.order.len(),
            c.k_ij.as_ptr(), c.k_ij.len(), c.l_ij.as_ptr(), c.l_ij.len(), card.bytes.as_mut_ptr(), NEWER_CARD, &mut card.length,
        )
    };
    given(number, card)
}

/// The same of SAFT-VR Mie.
#[inline]
pub fn mie_card(c: &MieComponents) -> Result<Card, Refusal> {
    let mut card = Card { bytes: [0; NEWER_CARD], length: 0 };
    #[rustfmt::skip]
    let number = unsafe {
        raw::domthelv_vr_card(
            c.m.len(), c.m.as_ptr(), c.m.len(), c.sigma.as_ptr(), c.sigma.len(), c.epsilon_k.as_ptr(), c.epsilon_k.len(),
            c.lr.as_ptr(), c.lr.len(), c.la.as_ptr(), c.la.len(), c.k_ij.as_ptr(), c.k_ij.len(), c.gamma_ij.as_ptr(),
            c.gamma_ij.len(), card.bytes.as_mut_ptr(), NEWER_CARD, &mut card.length,
        )
    };
    given(number, card)
}

#[rustfmt::skip]
type Reader = unsafe extern "C" fn(
    *const u8, usize, *mut u8, *mut usize, *mut f64, usize, *mut f64, usize, *mut f64, usize, *mut u8, usize,
) -> u8;

#[inline]
fn read(by: Reader, card: &[u8]) -> Result<CardSet, Refusal> {
    let (mut model, mut count) = (0, 0);
    let mut q = QuantumSet { count: 0, m: [0.0; SIDE], sheets: [0.0; SHEETS], orders: [0; SHEET] };
    let mut lists = [0.0; LISTS];
    #[rustfmt::skip]
    let number = unsafe {
        by(
            card.as_ptr(), card.len(), &mut model, &mut count, q.m.as_mut_ptr(), SIDE, lists.as_mut_ptr(), LISTS,
            q.sheets.as_mut_ptr(), SHEETS, q.orders.as_mut_ptr(), SHEET,
        )
    };
    let set = match model {
        0 => CardSet::Quantum(QuantumSet { count, ..q }),
        _ => CardSet::Mie(MieSet { count, lists, sheets: q.sheets }),
    };
    given(number, set)
}

/// From a card to the parameters of its model.
#[inline]
pub fn card_parameters(card: &[u8]) -> Result<CardSet, Refusal> {
    read(raw::domthelv_card_parameters, card)
}

/// The same of a newer card, of up to [`SIDE`] components.
#[inline]
pub fn newer_card_parameters(card: &[u8]) -> Result<CardSet, Refusal> {
    read(raw::domthelv_newer_card_parameters, card)
}

/// A card moved to the newer form: it reads as lists of the same bits.
#[inline]
pub fn card_to_newer(card: &[u8]) -> Result<Card, Refusal> {
    let mut newer = Card { bytes: [0; NEWER_CARD], length: 0 };
    let number = unsafe { raw::domthelv_card_to_newer(card.as_ptr(), card.len(), newer.bytes.as_mut_ptr(), NEWER_CARD, &mut newer.length) };
    given(number, newer)
}

/// A newer card moved back, where the older form can hold it.
#[inline]
pub fn card_to_older(card: &[u8]) -> Result<Card, Refusal> {
    let mut older = Card { bytes: [0; NEWER_CARD], length: 0 };
    let number = unsafe { raw::domthelv_card_to_older(card.as_ptr(), card.len(), older.bytes.as_mut_ptr(), NEWER_CARD, &mut older.length) };
    given(number, older)
}

// ---- the desk

/// One desk for quantum queries of all pages, [`DESK_PLACES`](crate::sizes::DESK_PLACES) places in lists of its own, 191,425 bytes in all.
#[derive(Clone, Debug)]
pub struct Desk {
    floats: [f64; DESK_FLOATS],
    bytes: [u8; DESK_BYTES],
}

/// What a call of [`Desk::serve`] did.
#[derive(Clone, Copy, Debug, PartialEq)]
pub enum Served {
    /// No query was waiting, and nothing was changed.
    Idle,
    /// A unit was done, and no query is finished by it.
    Worked,
    /// The query of a place is finished, with what the direct calls for table and energies give; the place is free.
    Finished(usize, Result<Energies, Refusal>),
}

impl Default for Desk {
    #[inline]
    fn default() -> Desk {
        Desk::new()
    }
}

impl Desk {
    /// A desk with no query.
    #[inline]
    pub fn new() -> Desk {
        let mut desk = Desk { floats: [0.0; DESK_FLOATS], bytes: [0; DESK_BYTES] };
        desk.begin();
        desk
    }

    /// Begins anew: all queries are dropped.
    #[inline]
    pub fn begin(&mut self) {
        let number = unsafe { raw::domthelv_desk_begin(self.floats.as_mut_ptr(), DESK_FLOATS, self.bytes.as_mut_ptr(), DESK_BYTES) };
        assert!(number == 0, "lists of the right length");
    }

    /// A query takes the lowest free place, which is given. Set and state are copied.
    #[inline]
    pub fn submit(&mut self, set: &QuantumSet, s: &State, non_additive: bool) -> Result<usize, Refusal> {
        let mut place = 0;
        #[rustfmt::skip]
        let number = unsafe {
            raw::domthelv_desk_submit(
                self.floats.as_mut_ptr(), DESK_FLOATS, self.bytes.as_mut_ptr(), DESK_BYTES, set.count, set.m.as_ptr(), SIDE,
                set.sheets.as_ptr(), SHEETS, set.orders.as_ptr(), SHEET, s.temperature, s.fractions.as_ptr(), s.fractions.len(),
                s.densities.as_ptr(), s.densities.len(), non_additive, &mut place,
            )
        };
        given(number, place)
    }

    /// One unit for the query in the next occupied place above the one served last. A query of n components is finished within
    /// 16 n² calls.
    #[inline]
    pub fn serve(&mut self) -> Served {
        let (mut outcome, mut place, mut answer, mut out) = (0, 0, 0, [0.0; 3]);
        #[rustfmt::skip]
        let number = unsafe {
            raw::domthelv_desk_serve(
                self.floats.as_mut_ptr(), DESK_FLOATS, self.bytes.as_mut_ptr(), DESK_BYTES, &mut outcome, &mut place, &mut answer,
                out.as_mut_ptr(), 3,
            )
        };
        assert!(number == 0, "lists of the right length");
        match outcome {
            0 => Served::Idle,
            1 => Served::Worked,
            _ => Served::Finished(place, given(answer, Energies { hard_sphere: out[0], dispersion: out[1], non_additive: out[2] })),
        }
    }
}

#[cfg(test)]
mod tests {
    use super::*;
    use crate::sizes::{at, table as sheets};

    const ZERO: [f64; 4] = [0.0; 4];
    fn hydrogen_and_neon(n: usize) -> QuantumComponents<'static> {
        QuantumComponents {
            m: &[1.0, 1.0][..n],
            sigma: &[3.0243, 2.7778][..n],
            epsilon_k: &[26.706, 37.501][..n],
            lr: &[9.0, 13.0][..n],
            la: &[6.0, 6.0][..n],
            mass: &[3.3474472e-27, 3.35092e-26][..n],
            order: &[1, 1][..n],
            k_ij: &ZERO[..n * n],
            l_ij: &ZERO[..n * n],
        }
    }
    fn ethane_and_methane() -> MieComponents<'static> {
        MieComponents {
            m: &[1.4373, 1.0],
            sigma: &[3.7257, 3.7412],
            epsilon_k: &[206.12, 153.36],
            lr: &[12.4, 12.65],
            la: &[6.0, 6.0],
            k_ij: &ZERO,
            gamma_ij: &ZERO,
        }
    }
    fn close(a: f64, b: f64) -> bool {
        (a - b).abs() <= 1e-11 * b.abs()
    }

    #[test]
    fn elementary_functions_answer_and_refuse() {
        assert_eq!(sqrt(2.25), Ok(1.5));
        assert_eq!(sqrt(-1.0), Err(Refusal::Domain));
        assert_eq!(powf(32.0, 1.0), Ok(32.0));
        assert_eq!(powf(32.0f64.next_up(), 1.0), Err(Refusal::Domain));
        assert_eq!(ln_1p(-1.0), Err(Refusal::Domain));
        assert_eq!(powi(2.0, 5), 32.0);
    }

    #[test]
    fn hydrogen_and_neon_have_their_known_energies_within_their_ends() {
        let set = quantum_parameters(&hydrogen_and_neon(2)).unwrap();
        let table = set.table(30.0).unwrap();
        let state = State { temperature: 30.0, fractions: &[0.5, 0.5], densities: &[0.01, 0.01] };
        let e = set.energies(&state, &table.values, true).unwrap();
        assert!(close(e.hard_sphere, 0.0317091953986) && close(e.dispersion, -0.0707546404806) && close(e.non_additive, 0.000543401006029));
        assert_eq!(quantum_stage(&hydrogen_and_neon(2), &state, true), Ok(e));
        let ends = set.energies_ends(&state, &table.values, true).unwrap();
        for (x, ends) in [(e.hard_sphere, ends.hard_sphere), (e.dispersion, ends.dispersion), (e.non_additive, ends.non_additive)] {
            assert!(ends.low <= x && x <= ends.high && ends.high - ends.low < 1e-9);
        }
        let s = set.radii(0, 1, 30.0).unwrap();
        assert_eq!(s.sigma[0], table.values[at(sheets::SIGMA_EFF, 0, 1)]);
        let worked = table.values[at(sheets::HS_DIAMETER, 0, 1)];
        assert_eq!(set.diameter(0, 1, 30.0, s.sigma[0], s.zero[0]), Ok(worked));
        let d = set.diameter_ends(0, 1, 30.0, s.sigma[0], s.zero[0]).unwrap();
        assert!(d.low <= worked && worked <= d.high);
    }

    #[test]
    fn ethane_and_methane_have_their_known_energies_within_their_ends() {
        let set = mie_parameters(&ethane_and_methane()).unwrap();
        let mut d = [0.0; 2];
        set.diameters(200.0, &mut d).unwrap();
        assert!(close(d[0], 3.62927155125) && close(d[1], 3.62348866077));
        let state = State { temperature: 200.0, fractions: &[0.4, 0.6], densities: &[0.003, 0.004] };
        for (chain, known) in [(false, -0.0206772971504), (true, -0.0207175328474)] {
            let x = set.dispersion(&state, &d, chain).unwrap();
            let ends = set.dispersion_ends(&state, &d, chain).unwrap();
            assert!(close(x, known) && ends.low <= x && x <= ends.high && ends.high - ends.low < 1e-9);
            assert_eq!(mie_stage(&ethane_and_methane(), &state, chain), Ok(x));
        }
        let r0 = set.radius(0, 0, 200.0).unwrap();
        assert_eq!(set.diameter(0, 0, 200.0, r0), Ok(d[0]));
        let ends = set.diameter_ends(0, 0, 200.0, r0).unwrap();
        assert!(ends.low <= d[0] && d[0] <= ends.high);
    }

    #[test]
    fn a_wrong_length_or_index_is_refused_before_an_order() {
        let mut set = quantum_parameters(&hydrogen_and_neon(2)).unwrap();
        let state = State { temperature: 30.0, fractions: &[0.5, 0.5], densities: &[0.01, 0.01] };
        let table = set.table(30.0).unwrap().values;
        let energies = set.energies(&state, &table, true);
        set.orders[at(0, 0, 2)] = 255;
        assert_eq!(set.energies(&state, &table, true), energies);
        set.orders[at(0, 0, 1)] = 3;
        assert_eq!(set.table(0.5).unwrap_err(), Refusal::Order);
        assert_eq!(set.radii(0, 2, 30.0), Err(Refusal::Length));
        assert_eq!(set.radii(1, 1, 30.0), Err(Refusal::Order));
        assert_eq!(set.diameter(2, 0, 0.5, 3.0, 2.5), Err(Refusal::Length));
        assert_eq!(set.diameter_ends(0, 0, 0.5, 3.0, 2.5), Err(Refusal::Order));
        assert_eq!(set.energies(&state, &table[1..], true), Err(Refusal::Length));
        assert_eq!(set.energies(&state, &table, true), Err(Refusal::Order));
        let short = State { densities: &[0.01], ..state };
        assert_eq!(set.energies_ends(&short, &table, true), Err(Refusal::Length));
        set.count = SIDE + 1;
        assert_eq!(set.table(30.0).unwrap_err(), Refusal::Length);
    }

    #[test]
    fn a_tank_adds_its_layers_from_the_bottom_up() {
        let set = quantum_parameters(&hydrogen_and_neon(2)).unwrap();
        let (bottom, top) = ([0.5, 0.5, 0.01, 0.01], [0.25, 0.75, 0.001, 0.003]);
        let single = |t: f64, x: &[f64], rho: &[f64]| {
            let state = State { temperature: t, fractions: x, densities: rho };
            set.energies(&state, &set.table(t).unwrap().values, true).unwrap()
        };
        let (a, b) = (single(25.0, &bottom[..2], &bottom[2..]), single(31.0, &top[..2], &top[2..]));
        let fractions = [bottom[0], bottom[1], top[0], top[1]];
        let densities = [bottom[2], bottom[3], top[2], top[3]];
        let tank = Layers { temperatures: &[25.0, 31.0], fractions: &fractions, densities: &densities, volumes: &[3e9, 5e9] };
        let e = set.tank(&tank, true).unwrap();
        let sum = |x: f64, y: f64| 0.0 + x * 3e9 * 25.0 + y * 5e9 * 31.0;
        assert_eq!(e.hard_sphere, sum(a.hard_sphere, b.hard_sphere));
        assert_eq!(e.dispersion, sum(a.dispersion, b.dispersion));
        assert_eq!(e.non_additive, sum(a.non_additive, b.non_additive));
        let ends = set.tank_ends(&tank, true).unwrap();
        for (x, ends) in [(e.hard_sphere, ends.hard_sphere), (e.dispersion, ends.dispersion), (e.non_additive, ends.non_additive)] {
            assert!(ends.low <= x && x <= ends.high);
        }
        let none = Layers { temperatures: &[], fractions: &[1.0], densities: &[], volumes: &[] };
        assert_eq!(set.tank(&none, true), Err(Refusal::Layers));
        assert_eq!(set.tank(&Layers { volumes: &[3e9], ..tank }, true), Err(Refusal::Length));
        assert_eq!(set.tank_ends(&Layers { volumes: &[3e9, 0.0], ..tank }, true), Err(Refusal::Limit));
    }

    #[test]
    fn the_order_lists_of_two_and_three_components_fall() {
        assert_eq!(quantum_order_counts(2), Ok(OrderCounts { passing: 7, order: 7, mixed_orders: 2 }));
        assert_eq!(quantum_order_counts(3), Ok(OrderCounts { passing: 15, order: 35, mixed_orders: 14 }));
        assert_eq!(quantum_order_counts(0), Err(Refusal::Length));
        assert_eq!(quantum_order_counts(SIDE + 1), Err(Refusal::Length));
    }

    #[test]
    fn each_refusal_of_the_parameters_has_its_name() {
        let right = hydrogen_and_neon(2);
        let refused = |c: QuantumComponents| quantum_parameters(&c).unwrap_err();
        assert_eq!(refused(QuantumComponents { sigma: &[3.0], ..right }), Refusal::Length);
        assert_eq!(refused(QuantumComponents { sigma: &[3.0, 17.0], ..right }), Refusal::Limit);
        assert_eq!(refused(QuantumComponents { m: &[1.0, 2.0], ..right }), Refusal::SegmentNumber);
        assert_eq!(quantum_record_m(1.0), Ok(()));
        assert_eq!(quantum_record_m(f64::NAN), Err(Refusal::SegmentNumber));
        assert_eq!(refused(QuantumComponents { order: &[0, 3], ..right }), Refusal::Order);
        assert_eq!(refused(QuantumComponents { order: &[1, 2], ..right }), Refusal::MixedOrders);
        let close = [6.0, f64::from_bits(6.0f64.to_bits() + 1)];
        assert_eq!(refused(QuantumComponents { lr: &[close[1], 13.0], ..right }), Refusal::Domain);
        let set = quantum_parameters(&right).unwrap();
        assert_eq!(set.table(0.5).unwrap_err(), Refusal::Limit);
        let state = State { temperature: 30.0, fractions: &[0.5, 0.5], densities: &[0.0, 0.0] };
        let table = set.table(30.0).unwrap();
        assert_eq!(set.energies(&state, &table.values, true), Err(Refusal::NotFinite));
        assert_eq!((0..=255).filter_map(Refusal::of).map(Refusal::number).collect::<Vec<_>>(), [1, 2, 3, 4, 5, 6, 7, 8, 9, 10, 11, 12, 14, 15, 16, 17]);
    }

    #[test]
    fn a_desk_works_the_queries_in_turn_and_refuses_a_seventeenth() {
        let (one, two) = (quantum_parameters(&hydrogen_and_neon(1)).unwrap(), quantum_parameters(&hydrogen_and_neon(2)).unwrap());
        let (thin, mixed) = (
            State { temperature: 25.0, fractions: &[1.0], densities: &[0.01] },
            State { temperature: 30.0, fractions: &[0.5, 0.5], densities: &[0.01, 0.01] },
        );
        let directly = |set: &QuantumSet, s: &State| set.energies(s, &set.table(s.temperature).unwrap().values, true);
        let mut desk = Desk::new();
        assert_eq!(desk.serve(), Served::Idle);
        assert_eq!(desk.submit(&two, &mixed, true), Ok(0));
        assert_eq!(desk.submit(&one, &thin, true), Ok(1));
        assert_eq!(desk.serve(), Served::Worked);
        assert_eq!(desk.serve(), Served::Finished(1, directly(&one, &thin)));
        assert_eq!(desk.submit(&one, &State { densities: &[0.0], ..thin }, true), Ok(1));
        assert_eq!(desk.serve(), Served::Worked);
        assert_eq!(desk.serve(), Served::Finished(1, Err(Refusal::NotFinite)));
        assert_eq!(desk.serve(), Served::Worked);
        assert_eq!(desk.serve(), Served::Finished(0, directly(&two, &mixed)));
        assert_eq!(desk.serve(), Served::Idle);
        for k in 0..crate::sizes::DESK_PLACES {
            assert_eq!(desk.submit(&two, &mixed, true), Ok(k));
        }
        assert_eq!(desk.submit(&two, &thin, true), Err(Refusal::Length));
        assert_eq!(desk.submit(&two, &State { temperature: 0.5, ..mixed }, true), Err(Refusal::Limit));
        assert_eq!(desk.submit(&two, &mixed, true), Err(Refusal::DeskFull));
        desk.begin();
        assert_eq!(desk.serve(), Served::Idle);
    }

    #[test]
    fn a_desk_of_other_lengths_is_refused_and_keeps_its_bits() {
        let s = quantum_parameters(&hydrogen_and_neon(1)).unwrap();
        for (a, b, c) in [(DESK_FLOATS - 1, DESK_BYTES, 3), (DESK_FLOATS + 1, DESK_BYTES, 3), (DESK_FLOATS, DESK_BYTES - 1, 3), (DESK_FLOATS, DESK_BYTES + 1, 3), (0, 0, 3), (DESK_FLOATS, DESK_BYTES, 2), (DESK_FLOATS, DESK_BYTES, 4)] {
            let (mut floats, mut bytes, mut out) = (vec![1.5; a], vec![1; b], vec![2.5; c]);
            let (mut outcome, mut place, mut number) = (9, 99, 9);
            #[rustfmt::skip]
            let (begun, entered, served) = unsafe {
                let served = raw::domthelv_desk_serve(floats.as_mut_ptr(), a, bytes.as_mut_ptr(), b, &mut outcome, &mut place, &mut number, out.as_mut_ptr(), c);
                if c != 3 { (1, 1, served) } else {
                    (
                        raw::domthelv_desk_begin(floats.as_mut_ptr(), a, bytes.as_mut_ptr(), b),
                        raw::domthelv_desk_submit(floats.as_mut_ptr(), a, bytes.as_mut_ptr(), b, 1, s.m.as_ptr(), SIDE, s.sheets.as_ptr(), SHEETS, s.orders.as_ptr(), SHEET, 30.0, [1.0].as_ptr(), 1, [0.01].as_ptr(), 1, true, &mut place),
                        served,
                    )
                }
            };
            assert_eq!((begun, entered, served), (1, 1, 1));
            assert_eq!((outcome, place, number), (9, 99, 9));
            assert!(floats.iter().all(|x| *x == 1.5) && bytes.iter().all(|x| *x == 1) && out.iter().all(|x| *x == 2.5));
        }
    }

    /// Bits, most significant first.
    fn packed(fields: &[(u32, u64)]) -> Vec<u8> {
        let bits: Vec<bool> = fields.iter().flat_map(|&(w, v)| (0..w).rev().map(move |k| v >> k & 1 == 1)).collect();
        bits.chunks(8).map(|c| c.iter().enumerate().map(|(k, &b)| (b as u8) << (7 - k)).sum()).collect()
    }

    #[test]
    fn a_card_of_hydrogen_and_neon_gives_their_set() {
        let c = hydrogen_and_neon(2);
        let mut fields = vec![(2, 0), (4, 2)];
        for i in 0..2 {
            fields.extend([c.sigma[i], c.epsilon_k[i], c.lr[i], c.la[i], c.mass[i]].map(|x| (64, x.to_bits())));
            fields.push((2, c.order[i] as u64));
        }
        fields.extend([(64, c.k_ij[1].to_bits()), (64, c.l_ij[1].to_bits())]);
        let card = packed(&fields);
        assert_eq!(quantum_card(&c).unwrap().bytes(), card);
        let wanted = quantum_parameters(&c).unwrap();
        let CardSet::Quantum(set) = card_parameters(&card).unwrap() else { panic!("a card of another model") };
        assert_eq!((set.count, set.m, set.sheets, set.orders), (wanted.count, wanted.m, wanted.sheets, wanted.orders));
        assert_eq!(card_parameters(&card[..card.len() - 1]).unwrap_err(), Refusal::ShortCard);
        assert_eq!(card_parameters(&[0b1000_1000]).unwrap_err(), Refusal::CardHeading);
        assert_eq!(card_parameters(&[&card[..], &[0]].concat()).unwrap_err(), Refusal::CardFilling);
    }

    #[test]
    fn a_card_is_written_of_at_most_eight_components() {
        let mie = ethane_and_methane();
        let card = mie_card(&mie).unwrap();
        let (wanted, CardSet::Mie(set)) = (mie_parameters(&mie).unwrap(), card_parameters(card.bytes()).unwrap()) else {
            panic!("a card of another model")
        };
        assert_eq!((set.count, set.lists, set.sheets), (wanted.count, wanted.lists, wanted.sheets));
        let (ones, nines, sixes, zeros) = ([1.0; 9], [9.0; 9], [6.0; 9], [0.0; 81]);
        let many = |n: usize| QuantumComponents {
            m: &ones[..n],
            sigma: &nines[..n],
            epsilon_k: &nines[..n],
            lr: &nines[..n],
            la: &sixes[..n],
            mass: &[1e-26; 9][..n],
            order: &[1; 9][..n],
            k_ij: &zeros[..n * n],
            l_ij: &zeros[..n * n],
        };
        assert_eq!(quantum_card(&many(8)).unwrap().bytes().len(), crate::sizes::CARD);
        assert_eq!(quantum_card(&many(9)).unwrap_err(), Refusal::CardHeading);
        assert_eq!(quantum_card(&QuantumComponents { order: &[3; 9], ..many(9) }).unwrap_err(), Refusal::Order);
        assert_eq!(mie_card(&MieComponents { sigma: &[3.7257], ..mie }).unwrap_err(), Refusal::Length);
    }

    #[test]
    fn a_newer_card_spares_a_pairs_zero() {
        let c = ethane_and_methane();
        let card = |pair: &[(u32, u64)]| {
            let mut fields = vec![(2, 3), (4, 2)];
            for i in 0..2 {
                fields.extend([c.m[i], c.sigma[i], c.epsilon_k[i], c.lr[i], c.la[i]].map(|x| (64, x.to_bits())));
            }
            packed(&[&fields, pair].concat())
        };
        let wanted = mie_parameters(&c).unwrap();
        let CardSet::Mie(set) = newer_card_parameters(&card(&[(1, 0), (1, 0)])).unwrap() else { panic!("a card of another model") };
        assert_eq!((set.count, set.lists, set.sheets), (wanted.count, wanted.lists, wanted.sheets));
        let minus = card(&[(1, 0), (1, 1), (64, (-0.0f64).to_bits())]);
        assert!(matches!(newer_card_parameters(&minus), Ok(CardSet::Mie(_))));
        assert_eq!(newer_card_parameters(&card(&[(1, 0), (1, 1), (64, 0)])).unwrap_err(), Refusal::StoredZero);
        assert_eq!(card_parameters(&minus).unwrap_err(), Refusal::CardHeading);
        let older = card_to_older(&minus).unwrap();
        assert_eq!(card_to_newer(older.bytes()).unwrap().bytes(), minus);
        assert_eq!(mie_card(&c).unwrap(), card_to_older(&card(&[(1, 0), (1, 0)])).unwrap());
        let nine = packed(&[vec![(2, 3), (4, 9)], vec![(64, 1); 45], vec![(1, 0); 72]].concat());
        assert_eq!(card_to_older(&nine).unwrap_err(), Refusal::TooMany);
    }
}
