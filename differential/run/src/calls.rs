//! Each operation of the boundary, called with lists in guarded pages. The lent outputs stand last.
use crate::cards::Form;
use crate::desk::Desk;
use crate::lent::Lent;
use crate::oracle::{Lists, MieSet, QuantumSet, Slopes, State, Tank};
use crate::port;
use crate::random::Random;

pub struct Caller {
    pub lent: Lent,
    random: Random,
}

impl Caller {
    pub fn new(seed: u64) -> Self {
        Caller { lent: Lent::default(), random: Random(seed) }
    }
    fn lend<T: Copy>(&mut self, list: &[T]) -> *mut T {
        let at_end = !self.random.once_in(4);
        self.lent.lend(list, at_end)
    }
    /// A list to be written, with arbitrary bits in it, every second float a NaN.
    fn floats(&mut self, n: usize) -> *mut f64 {
        let list: Vec<u64> = (0..n).map(|_| self.random.pattern()).collect();
        self.lend(&list) as *mut f64
    }
    fn bytes(&mut self, n: usize) -> *mut u8 {
        let list: Vec<u8> = (0..n).map(|_| self.random.next() as u8).collect();
        self.lend(&list)
    }

    pub fn vrq_parameters(&mut self, l: &Lists, out: [usize; 3]) -> Option<u8> {
        let f = port::VRQ_PARAMETERS?;
        self.lent.clear();
        let [m, sigma, epsilon_k, lr, la, mass] = [&l.m, &l.sigma, &l.epsilon_k, &l.lr, &l.la, &l.mass].map(|x| self.lend(x));
        let order = self.lend(&l.order);
        let [k_ij, l_ij] = [&l.k_ij, &l.l_ij].map(|x| self.lend(x));
        let (set_m, set_sheets, set_orders) = (self.floats(out[0]), self.floats(out[1]), self.bytes(out[2]));
        Some(unsafe {
            f(
                l.count, m, l.m.len(), sigma, l.sigma.len(), epsilon_k, l.epsilon_k.len(), lr, l.lr.len(), la, l.la.len(),
                mass, l.mass.len(), order, l.order.len(), k_ij, l.k_ij.len(), l_ij, l.l_ij.len(), set_m, out[0], set_sheets,
                out[1], set_orders, out[2],
            )
        })
    }

    pub fn card_parameters(&mut self, card: &[u8], form: Form, out: [usize; 4]) -> Option<u8> {
        let f = if form == Form::Older { port::CARD_PARAMETERS? } else { port::NEWER_CARD_PARAMETERS? };
        self.lent.clear();
        let (bytes, model) = (self.lend(card), self.bytes(1));
        let count = self.random.next() as usize;
        let count = self.lend(&[count]);
        let (set_m, set_lists, set_sheets, set_orders) = (self.floats(out[0]), self.floats(out[1]), self.floats(out[2]), self.bytes(out[3]));
        Some(unsafe {
            f(bytes, card.len(), model, count, set_m, out[0], set_lists, out[1], set_sheets, out[2], set_orders, out[3])
        })
    }

    /// A card to be written, and its length: arbitrary bits.
    fn card(&mut self, out: usize) -> (*mut u8, *mut usize) {
        let length = self.random.next() as usize;
        (self.bytes(out), self.lend(&[length]))
    }

    pub fn card_of(&mut self, l: &Lists, quantum: bool, out: usize) -> Option<u8> {
        self.lent.clear();
        let [m, sigma, epsilon_k, lr, la] = [&l.m, &l.sigma, &l.epsilon_k, &l.lr, &l.la].map(|x| self.lend(x));
        let [k_ij, l_ij] = [&l.k_ij, &l.l_ij].map(|x| self.lend(x));
        if !quantum {
            let f = port::VR_CARD?;
            let (card, length) = self.card(out);
            return Some(unsafe {
                f(
                    l.count, m, l.m.len(), sigma, l.sigma.len(), epsilon_k, l.epsilon_k.len(), lr, l.lr.len(), la, l.la.len(),
                    k_ij, l.k_ij.len(), l_ij, l.l_ij.len(), card, out, length,
                )
            });
        }
        let f = port::VRQ_CARD?;
        let (mass, order) = (self.lend(&l.mass), self.lend(&l.order));
        let (card, length) = self.card(out);
        Some(unsafe {
            f(
                l.count, m, l.m.len(), sigma, l.sigma.len(), epsilon_k, l.epsilon_k.len(), lr, l.lr.len(), la, l.la.len(),
                mass, l.mass.len(), order, l.order.len(), k_ij, l.k_ij.len(), l_ij, l.l_ij.len(), card, out, length,
            )
        })
    }

    /// A card moved to a form.
    pub fn moved(&mut self, card: &[u8], to: Form, out: usize) -> Option<u8> {
        let f = if to == Form::Newer { port::CARD_TO_NEWER? } else { port::CARD_TO_OLDER? };
        self.lent.clear();
        let bytes = self.lend(card);
        let (moved, length) = self.card(out);
        Some(unsafe { f(bytes, card.len(), moved, out, length) })
    }

    pub fn vrq_table(&mut self, s: &QuantumSet, t: f64, out: [usize; 2]) -> Option<u8> {
        let f = port::VRQ_TABLE?;
        self.lent.clear();
        let (m, sheets, orders) = (self.lend(&s.m), self.lend(&s.sheets), self.lend(&s.orders));
        let (table, counts) = (self.floats(out[0]), self.bytes(out[1]));
        Some(unsafe { f(s.count, m, s.m.len(), sheets, s.sheets.len(), orders, s.orders.len(), t, table, out[0], counts, out[1]) })
    }

    pub fn vrq_radii(&mut self, s: &QuantumSet, i: usize, j: usize, t: f64, out: [usize; 2]) -> Option<u8> {
        let f = port::VRQ_RADII?;
        self.lent.clear();
        let (m, sheets, orders) = (self.lend(&s.m), self.lend(&s.sheets), self.lend(&s.orders));
        let (radii, counts) = (self.floats(out[0]), self.bytes(out[1]));
        Some(unsafe { f(s.count, m, s.m.len(), sheets, s.sheets.len(), orders, s.orders.len(), i, j, t, radii, out[0], counts, out[1]) })
    }

    pub fn vrq_energies(&mut self, s: &QuantumSet, st: &State, table: &[f64], non_additive: bool, out: usize) -> Option<u8> {
        self.vrq_energies_by(port::VRQ_ENERGIES?, s, st, table, non_additive, out)
    }

    fn vrq_energies_by(
        &mut self,
        f: port::Energies,
        s: &QuantumSet,
        st: &State,
        table: &[f64],
        non_additive: bool,
        out: usize,
    ) -> Option<u8> {
        self.lent.clear();
        let (m, sheets, orders) = (self.lend(&s.m), self.lend(&s.sheets), self.lend(&s.orders));
        let (x, rho, entries) = (self.lend(&st.fractions), self.lend(&st.densities), self.lend(table));
        let energies = self.floats(out);
        Some(unsafe {
            f(
                s.count, m, s.m.len(), sheets, s.sheets.len(), orders, s.orders.len(), st.temperature, x, st.fractions.len(),
                rho, st.densities.len(), entries, table.len(), non_additive, energies, out,
            )
        })
    }

    pub fn vrq_total(&mut self, s: &QuantumSet, st: &State, table: &[f64], non_additive: bool, out: usize) -> Option<u8> {
        self.vrq_energies_by(port::VRQ_TOTAL?, s, st, table, non_additive, out)
    }

    pub fn vrq_energies_ends(&mut self, s: &QuantumSet, st: &State, table: &[f64], non_additive: bool, out: usize) -> Option<u8> {
        self.vrq_energies_by(port::VRQ_ENERGIES_ENDS?, s, st, table, non_additive, out)
    }

    fn vrq_tank_by(&mut self, f: port::Tank, s: &QuantumSet, t: &Tank, non_additive: bool, out: usize) -> Option<u8> {
        self.lent.clear();
        let (m, sheets, orders) = (self.lend(&s.m), self.lend(&s.sheets), self.lend(&s.orders));
        let [temperatures, x, rho, volumes] = [&t.temperatures, &t.fractions, &t.densities, &t.volumes].map(|l| self.lend(l));
        let energies = self.floats(out);
        Some(unsafe {
            f(
                s.count, m, s.m.len(), sheets, s.sheets.len(), orders, s.orders.len(), t.layers, temperatures, t.temperatures.len(),
                x, t.fractions.len(), rho, t.densities.len(), volumes, t.volumes.len(), non_additive, energies, out,
            )
        })
    }

    pub fn vrq_tank(&mut self, s: &QuantumSet, t: &Tank, non_additive: bool, out: usize) -> Option<u8> {
        self.vrq_tank_by(port::VRQ_TANK?, s, t, non_additive, out)
    }

    pub fn vrq_tank_ends(&mut self, s: &QuantumSet, t: &Tank, non_additive: bool, out: usize) -> Option<u8> {
        self.vrq_tank_by(port::VRQ_TANK_ENDS?, s, t, non_additive, out)
    }

    pub fn vrq_energies_slopes(&mut self, s: &QuantumSet, st: &State, d: &Slopes, non_additive: bool, out: usize) -> Option<u8> {
        let f = port::VRQ_ENERGIES_SLOPES?;
        self.lent.clear();
        let (m, sheets, orders) = (self.lend(&s.m), self.lend(&s.sheets), self.lend(&s.orders));
        let [x, dx, rho, drho] = [&st.fractions, &d.fractions, &st.densities, &d.densities].map(|l| self.lend(l));
        let energies = self.floats(out);
        Some(unsafe {
            f(
                s.count, m, s.m.len(), sheets, s.sheets.len(), orders, s.orders.len(), st.temperature, d.temperature, x,
                st.fractions.len(), dx, d.fractions.len(), rho, st.densities.len(), drho, d.densities.len(), non_additive, energies, out,
            )
        })
    }

    fn desk(&mut self, d: &Desk) -> (*mut f64, *mut u8) {
        (self.lend(&d.floats) as *mut f64, self.lend(&d.bytes))
    }

    pub fn desk_begin(&mut self, d: &Desk) -> Option<u8> {
        let f = port::DESK_BEGIN?;
        self.lent.clear();
        let (floats, bytes) = self.desk(d);
        Some(unsafe { f(floats, d.floats.len(), bytes, d.bytes.len()) })
    }

    pub fn desk_submit(&mut self, d: &Desk, s: &QuantumSet, st: &State, non_additive: bool) -> Option<u8> {
        let f = port::DESK_SUBMIT?;
        self.lent.clear();
        let (m, sheets, orders) = (self.lend(&s.m), self.lend(&s.sheets), self.lend(&s.orders));
        let (x, rho) = (self.lend(&st.fractions), self.lend(&st.densities));
        let (floats, bytes) = self.desk(d);
        let place = self.random.next() as usize;
        let place = self.lend(&[place]);
        Some(unsafe {
            f(
                floats, d.floats.len(), bytes, d.bytes.len(), s.count, m, s.m.len(), sheets, s.sheets.len(), orders, s.orders.len(),
                st.temperature, x, st.fractions.len(), rho, st.densities.len(), non_additive, place,
            )
        })
    }

    pub fn desk_serve(&mut self, d: &Desk, out: usize) -> Option<u8> {
        let f = port::DESK_SERVE?;
        self.lent.clear();
        let (floats, bytes) = self.desk(d);
        let outcome = self.bytes(1);
        let place = self.random.next() as usize;
        let place = self.lend(&[place]);
        let (number, energies) = (self.bytes(1), self.floats(out));
        Some(unsafe { f(floats, d.floats.len(), bytes, d.bytes.len(), outcome, place, number, energies, out) })
    }

    pub fn vrq_record_m(&mut self, m: f64) -> Option<u8> {
        let f = port::VRQ_RECORD_M?;
        self.lent.clear();
        Some(unsafe { f(m) })
    }

    pub fn order_counts(&mut self, count: usize, out: usize) -> Option<u8> {
        let f = port::ORDER_COUNTS?;
        self.lent.clear();
        let list: Vec<u64> = (0..out).map(|_| self.random.next()).collect();
        let counts = self.lend(&list);
        Some(unsafe { f(count, counts, out) })
    }

    pub fn vrq_diameter(&mut self, s: &QuantumSet, i: usize, j: usize, t: f64, radii: [f64; 2]) -> Option<u8> {
        let f = port::VRQ_DIAMETER?;
        self.lent.clear();
        let (m, sheets, orders) = (self.lend(&s.m), self.lend(&s.sheets), self.lend(&s.orders));
        let diameter = self.floats(1);
        Some(unsafe { f(s.count, m, s.m.len(), sheets, s.sheets.len(), orders, s.orders.len(), i, j, t, radii[0], radii[1], diameter) })
    }

    pub fn vrq_diameter_ends(&mut self, s: &QuantumSet, i: usize, j: usize, t: f64, radii: [f64; 2], out: usize) -> Option<u8> {
        let f = port::VRQ_DIAMETER_ENDS?;
        self.lent.clear();
        let (m, sheets, orders) = (self.lend(&s.m), self.lend(&s.sheets), self.lend(&s.orders));
        let ends = self.floats(out);
        Some(unsafe { f(s.count, m, s.m.len(), sheets, s.sheets.len(), orders, s.orders.len(), i, j, t, radii[0], radii[1], ends, out) })
    }

    pub fn vrq_stage(&mut self, l: &Lists, st: &State, non_additive: bool, out: usize) -> Option<u8> {
        let f = port::VRQ_STAGE?;
        self.lent.clear();
        let [m, sigma, epsilon_k, lr, la, mass] = [&l.m, &l.sigma, &l.epsilon_k, &l.lr, &l.la, &l.mass].map(|x| self.lend(x));
        let order = self.lend(&l.order);
        let [k_ij, l_ij, x, rho] = [&l.k_ij, &l.l_ij, &st.fractions, &st.densities].map(|x| self.lend(x));
        let energies = self.floats(out);
        Some(unsafe {
            f(
                l.count, m, l.m.len(), sigma, l.sigma.len(), epsilon_k, l.epsilon_k.len(), lr, l.lr.len(), la, l.la.len(),
                mass, l.mass.len(), order, l.order.len(), k_ij, l.k_ij.len(), l_ij, l.l_ij.len(), st.temperature, x,
                st.fractions.len(), rho, st.densities.len(), non_additive, energies, out,
            )
        })
    }

    pub fn vr_parameters(&mut self, l: &Lists, out: [usize; 2]) -> Option<u8> {
        let f = port::VR_PARAMETERS?;
        self.lent.clear();
        let [m, sigma, epsilon_k, lr, la] = [&l.m, &l.sigma, &l.epsilon_k, &l.lr, &l.la].map(|x| self.lend(x));
        let [k_ij, gamma_ij] = [&l.k_ij, &l.l_ij].map(|x| self.lend(x));
        let (set_lists, set_sheets) = (self.floats(out[0]), self.floats(out[1]));
        Some(unsafe {
            f(
                l.count, m, l.m.len(), sigma, l.sigma.len(), epsilon_k, l.epsilon_k.len(), lr, l.lr.len(), la, l.la.len(),
                k_ij, l.k_ij.len(), gamma_ij, l.l_ij.len(), set_lists, out[0], set_sheets, out[1],
            )
        })
    }

    pub fn vr_diameters(&mut self, s: &MieSet, t: f64, out: usize) -> Option<u8> {
        let f = port::VR_DIAMETERS?;
        self.lent.clear();
        let (lists, sheets) = (self.lend(&s.lists), self.lend(&s.sheets));
        let diameters = self.floats(out);
        Some(unsafe { f(s.count, lists, s.lists.len(), sheets, s.sheets.len(), t, diameters, out) })
    }

    pub fn vr_radius(&mut self, s: &MieSet, i: usize, j: usize, t: f64) -> Option<u8> {
        let f = port::VR_RADIUS?;
        self.lent.clear();
        let (lists, sheets) = (self.lend(&s.lists), self.lend(&s.sheets));
        let radius = self.floats(1);
        Some(unsafe { f(s.count, lists, s.lists.len(), sheets, s.sheets.len(), i, j, t, radius) })
    }

    pub fn vr_diameter(&mut self, s: &MieSet, i: usize, j: usize, t: f64, r0: f64) -> Option<u8> {
        let f = port::VR_DIAMETER?;
        self.lent.clear();
        let (lists, sheets) = (self.lend(&s.lists), self.lend(&s.sheets));
        let diameter = self.floats(1);
        Some(unsafe { f(s.count, lists, s.lists.len(), sheets, s.sheets.len(), i, j, t, r0, diameter) })
    }

    pub fn vr_dispersion(&mut self, s: &MieSet, st: &State, diameters: &[f64], chain: bool) -> Option<u8> {
        let f = port::VR_DISPERSION?;
        self.lent.clear();
        let (lists, sheets) = (self.lend(&s.lists), self.lend(&s.sheets));
        let (x, rho, d) = (self.lend(&st.fractions), self.lend(&st.densities), self.lend(diameters));
        let energy = self.floats(1);
        Some(unsafe {
            f(
                s.count, lists, s.lists.len(), sheets, s.sheets.len(), st.temperature, x, st.fractions.len(), rho,
                st.densities.len(), d, diameters.len(), chain, energy,
            )
        })
    }

    pub fn vr_dispersion_ends(&mut self, s: &MieSet, st: &State, diameters: &[f64], chain: bool, out: usize) -> Option<u8> {
        let f = port::VR_DISPERSION_ENDS?;
        self.lent.clear();
        let (lists, sheets) = (self.lend(&s.lists), self.lend(&s.sheets));
        let (x, rho, d) = (self.lend(&st.fractions), self.lend(&st.densities), self.lend(diameters));
        let ends = self.floats(out);
        Some(unsafe {
            f(
                s.count, lists, s.lists.len(), sheets, s.sheets.len(), st.temperature, x, st.fractions.len(), rho,
                st.densities.len(), d, diameters.len(), chain, ends, out,
            )
        })
    }

    pub fn vr_diameter_ends(&mut self, s: &MieSet, i: usize, j: usize, t: f64, r0: f64, out: usize) -> Option<u8> {
        let f = port::VR_DIAMETER_ENDS?;
        self.lent.clear();
        let (lists, sheets) = (self.lend(&s.lists), self.lend(&s.sheets));
        let ends = self.floats(out);
        Some(unsafe { f(s.count, lists, s.lists.len(), sheets, s.sheets.len(), i, j, t, r0, ends, out) })
    }

    pub fn vr_stage(&mut self, l: &Lists, st: &State, chain: bool) -> Option<u8> {
        let f = port::VR_STAGE?;
        self.lent.clear();
        let [m, sigma, epsilon_k, lr, la] = [&l.m, &l.sigma, &l.epsilon_k, &l.lr, &l.la].map(|x| self.lend(x));
        let [k_ij, gamma_ij, x, rho] = [&l.k_ij, &l.l_ij, &st.fractions, &st.densities].map(|x| self.lend(x));
        let energy = self.floats(1);
        Some(unsafe {
            f(
                l.count, m, l.m.len(), sigma, l.sigma.len(), epsilon_k, l.epsilon_k.len(), lr, l.lr.len(), la, l.la.len(),
                k_ij, l.k_ij.len(), gamma_ij, l.l_ij.len(), st.temperature, x, st.fractions.len(), rho, st.densities.len(),
                chain, energy,
            )
        })
    }
}
