//! The functions of include/domthelv.h as they are: 0 where a call is accepted, else the refusal's number.
//! A list is a pointer and a length. The caller keeps Rust's rules: a list that is read or written has its length of elements,
//! and none that is written overlaps another.

unsafe extern "C" {
    // Elementary functions.
    pub fn domthelv_sqrt(x: f64, out: *mut f64) -> u8;
    pub fn domthelv_ln(x: f64, out: *mut f64) -> u8;
    pub fn domthelv_ln_1p(x: f64, out: *mut f64) -> u8;
    pub fn domthelv_exp(x: f64, out: *mut f64) -> u8;
    pub fn domthelv_exp_m1(x: f64, out: *mut f64) -> u8;
    pub fn domthelv_tanh(x: f64, out: *mut f64) -> u8;
    pub fn domthelv_powf(base: f64, exponent: f64, out: *mut f64) -> u8;
    pub fn domthelv_powi(x: f64, n: i32) -> f64;
}

#[rustfmt::skip] // one line for each list, with its length
unsafe extern "C" {
    // Quantum model (SAFT-VRQ Mie).
    pub fn domthelv_vrq_record_m(m: f64) -> u8;
    pub fn domthelv_vrq_parameters(
        count: usize,
        m: *const f64, m_len: usize,
        sigma: *const f64, sigma_len: usize,
        epsilon_k: *const f64, epsilon_k_len: usize,
        lr: *const f64, lr_len: usize,
        la: *const f64, la_len: usize,
        mass: *const f64, mass_len: usize,
        order: *const u8, order_len: usize,
        k_ij: *const f64, k_ij_len: usize,
        l_ij: *const f64, l_ij_len: usize,
        set_m: *mut f64, set_m_len: usize,
        set_sheets: *mut f64, set_sheets_len: usize,
        set_orders: *mut u8, set_orders_len: usize,
    ) -> u8;
    pub fn domthelv_order_counts(
        count: usize,
        out: *mut u64, out_len: usize,
    ) -> u8;
    pub fn domthelv_vrq_table(
        count: usize,
        m: *const f64, m_len: usize,
        sheets: *const f64, sheets_len: usize,
        orders: *const u8, orders_len: usize,
        temperature: f64,
        table: *mut f64, table_len: usize,
        counts: *mut u8, counts_len: usize,
    ) -> u8;
    pub fn domthelv_vrq_radii(
        count: usize,
        m: *const f64, m_len: usize,
        sheets: *const f64, sheets_len: usize,
        orders: *const u8, orders_len: usize,
        i: usize, j: usize,
        temperature: f64,
        out: *mut f64, out_len: usize,
        counts: *mut u8, counts_len: usize,
    ) -> u8;
    pub fn domthelv_vrq_energies(
        count: usize,
        m: *const f64, m_len: usize,
        sheets: *const f64, sheets_len: usize,
        orders: *const u8, orders_len: usize,
        temperature: f64,
        fractions: *const f64, fractions_len: usize,
        densities: *const f64, densities_len: usize,
        table: *const f64, table_len: usize,
        non_additive: bool,
        out: *mut f64, out_len: usize,
    ) -> u8;
    pub fn domthelv_vrq_total(
        count: usize,
        m: *const f64, m_len: usize,
        sheets: *const f64, sheets_len: usize,
        orders: *const u8, orders_len: usize,
        temperature: f64,
        fractions: *const f64, fractions_len: usize,
        densities: *const f64, densities_len: usize,
        table: *const f64, table_len: usize,
        non_additive: bool,
        out: *mut f64, out_len: usize,
    ) -> u8;
    pub fn domthelv_vrq_energies_ends(
        count: usize,
        m: *const f64, m_len: usize,
        sheets: *const f64, sheets_len: usize,
        orders: *const u8, orders_len: usize,
        temperature: f64,
        fractions: *const f64, fractions_len: usize,
        densities: *const f64, densities_len: usize,
        table: *const f64, table_len: usize,
        non_additive: bool,
        out: *mut f64, out_len: usize,
    ) -> u8;
    pub fn domthelv_vrq_tank(
        count: usize,
        m: *const f64, m_len: usize,
        sheets: *const f64, sheets_len: usize,
        orders: *const u8, orders_len: usize,
        layers: usize,
        temperatures: *const f64, temperatures_len: usize,
        fractions: *const f64, fractions_len: usize,
        densities: *const f64, densities_len: usize,
        volumes: *const f64, volumes_len: usize,
        non_additive: bool,
        out: *mut f64, out_len: usize,
    ) -> u8;
    pub fn domthelv_vrq_tank_ends(
        count: usize,
        m: *const f64, m_len: usize,
        sheets: *const f64, sheets_len: usize,
        orders: *const u8, orders_len: usize,
        layers: usize,
        temperatures: *const f64, temperatures_len: usize,
        fractions: *const f64, fractions_len: usize,
        densities: *const f64, densities_len: usize,
        volumes: *const f64, volumes_len: usize,
        non_additive: bool,
        out: *mut f64, out_len: usize,
    ) -> u8;
    pub fn domthelv_vrq_energies_slopes(
        count: usize,
        m: *const f64, m_len: usize,
        sheets: *const f64, sheets_len: usize,
        orders: *const u8, orders_len: usize,
        temperature: f64, temperature_slope: f64,
        fractions: *const f64, fractions_len: usize,
        fraction_slopes: *const f64, fraction_slopes_len: usize,
        densities: *const f64, densities_len: usize,
        density_slopes: *const f64, density_slopes_len: usize,
        non_additive: bool,
        out: *mut f64, out_len: usize,
    ) -> u8;
    pub fn domthelv_vrq_diameter(
        count: usize,
        m: *const f64, m_len: usize,
        sheets: *const f64, sheets_len: usize,
        orders: *const u8, orders_len: usize,
        i: usize, j: usize,
        temperature: f64, sigma_eff: f64, r0: f64,
        out: *mut f64,
    ) -> u8;
    pub fn domthelv_vrq_diameter_ends(
        count: usize,
        m: *const f64, m_len: usize,
        sheets: *const f64, sheets_len: usize,
        orders: *const u8, orders_len: usize,
        i: usize, j: usize,
        temperature: f64, sigma_eff: f64, r0: f64,
        out: *mut f64, out_len: usize,
    ) -> u8;
    pub fn domthelv_vrq_stage(
        count: usize,
        m: *const f64, m_len: usize,
        sigma: *const f64, sigma_len: usize,
        epsilon_k: *const f64, epsilon_k_len: usize,
        lr: *const f64, lr_len: usize,
        la: *const f64, la_len: usize,
        mass: *const f64, mass_len: usize,
        order: *const u8, order_len: usize,
        k_ij: *const f64, k_ij_len: usize,
        l_ij: *const f64, l_ij_len: usize,
        temperature: f64,
        fractions: *const f64, fractions_len: usize,
        densities: *const f64, densities_len: usize,
        non_additive: bool,
        out: *mut f64, out_len: usize,
    ) -> u8;

    // SAFT-VR Mie.
    pub fn domthelv_vr_parameters(
        count: usize,
        m: *const f64, m_len: usize,
        sigma: *const f64, sigma_len: usize,
        epsilon_k: *const f64, epsilon_k_len: usize,
        lr: *const f64, lr_len: usize,
        la: *const f64, la_len: usize,
        k_ij: *const f64, k_ij_len: usize,
        gamma_ij: *const f64, gamma_ij_len: usize,
        set_lists: *mut f64, set_lists_len: usize,
        set_sheets: *mut f64, set_sheets_len: usize,
    ) -> u8;
    pub fn domthelv_vr_diameters(
        count: usize,
        lists: *const f64, lists_len: usize,
        sheets: *const f64, sheets_len: usize,
        temperature: f64,
        diameters: *mut f64, diameters_len: usize,
    ) -> u8;
    pub fn domthelv_vr_dispersion(
        count: usize,
        lists: *const f64, lists_len: usize,
        sheets: *const f64, sheets_len: usize,
        temperature: f64,
        fractions: *const f64, fractions_len: usize,
        densities: *const f64, densities_len: usize,
        diameters: *const f64, diameters_len: usize,
        chain: bool,
        out: *mut f64,
    ) -> u8;
    pub fn domthelv_vr_dispersion_ends(
        count: usize,
        lists: *const f64, lists_len: usize,
        sheets: *const f64, sheets_len: usize,
        temperature: f64,
        fractions: *const f64, fractions_len: usize,
        densities: *const f64, densities_len: usize,
        diameters: *const f64, diameters_len: usize,
        chain: bool,
        out: *mut f64, out_len: usize,
    ) -> u8;
    pub fn domthelv_vr_radius(
        count: usize,
        lists: *const f64, lists_len: usize,
        sheets: *const f64, sheets_len: usize,
        i: usize, j: usize,
        temperature: f64,
        out: *mut f64,
    ) -> u8;
    pub fn domthelv_vr_diameter(
        count: usize,
        lists: *const f64, lists_len: usize,
        sheets: *const f64, sheets_len: usize,
        i: usize, j: usize,
        temperature: f64, r0: f64,
        out: *mut f64,
    ) -> u8;
    pub fn domthelv_vr_diameter_ends(
        count: usize,
        lists: *const f64, lists_len: usize,
        sheets: *const f64, sheets_len: usize,
        i: usize, j: usize,
        temperature: f64, r0: f64,
        out: *mut f64, out_len: usize,
    ) -> u8;
    pub fn domthelv_vr_stage(
        count: usize,
        m: *const f64, m_len: usize,
        sigma: *const f64, sigma_len: usize,
        epsilon_k: *const f64, epsilon_k_len: usize,
        lr: *const f64, lr_len: usize,
        la: *const f64, la_len: usize,
        k_ij: *const f64, k_ij_len: usize,
        gamma_ij: *const f64, gamma_ij_len: usize,
        temperature: f64,
        fractions: *const f64, fractions_len: usize,
        densities: *const f64, densities_len: usize,
        chain: bool,
        out: *mut f64,
    ) -> u8;
    // The fuel card.
    pub fn domthelv_card_parameters(
        card: *const u8, card_len: usize,
        model: *mut u8,
        count: *mut usize,
        set_m: *mut f64, set_m_len: usize,
        set_lists: *mut f64, set_lists_len: usize,
        set_sheets: *mut f64, set_sheets_len: usize,
        set_orders: *mut u8, set_orders_len: usize,
    ) -> u8;
    pub fn domthelv_vrq_card(
        count: usize,
        m: *const f64, m_len: usize,
        sigma: *const f64, sigma_len: usize,
        epsilon_k: *const f64, epsilon_k_len: usize,
        lr: *const f64, lr_len: usize,
        la: *const f64, la_len: usize,
        mass: *const f64, mass_len: usize,
        order: *const u8, order_len: usize,
        k_ij: *const f64, k_ij_len: usize,
        l_ij: *const f64, l_ij_len: usize,
        card: *mut u8, card_len: usize,
        length: *mut usize,
    ) -> u8;
    pub fn domthelv_vr_card(
        count: usize,
        m: *const f64, m_len: usize,
        sigma: *const f64, sigma_len: usize,
        epsilon_k: *const f64, epsilon_k_len: usize,
        lr: *const f64, lr_len: usize,
        la: *const f64, la_len: usize,
        k_ij: *const f64, k_ij_len: usize,
        gamma_ij: *const f64, gamma_ij_len: usize,
        card: *mut u8, card_len: usize,
        length: *mut usize,
    ) -> u8;
    pub fn domthelv_newer_card_parameters(
        card: *const u8, card_len: usize,
        model: *mut u8,
        count: *mut usize,
        set_m: *mut f64, set_m_len: usize,
        set_lists: *mut f64, set_lists_len: usize,
        set_sheets: *mut f64, set_sheets_len: usize,
        set_orders: *mut u8, set_orders_len: usize,
    ) -> u8;
    pub fn domthelv_card_to_newer(
        card: *const u8, card_len: usize,
        newer: *mut u8, newer_len: usize,
        length: *mut usize,
    ) -> u8;
    pub fn domthelv_card_to_older(
        card: *const u8, card_len: usize,
        older: *mut u8, older_len: usize,
        length: *mut usize,
    ) -> u8;
    // The desk.
    pub fn domthelv_desk_begin(
        floats: *mut f64, floats_len: usize,
        bytes: *mut u8, bytes_len: usize,
    ) -> u8;
    pub fn domthelv_desk_submit(
        floats: *mut f64, floats_len: usize,
        bytes: *mut u8, bytes_len: usize,
        count: usize,
        m: *const f64, m_len: usize,
        sheets: *const f64, sheets_len: usize,
        orders: *const u8, orders_len: usize,
        temperature: f64,
        fractions: *const f64, fractions_len: usize,
        densities: *const f64, densities_len: usize,
        non_additive: bool,
        place: *mut usize,
    ) -> u8;
    pub fn domthelv_desk_serve(
        floats: *mut f64, floats_len: usize,
        bytes: *mut u8, bytes_len: usize,
        outcome: *mut u8,
        place: *mut usize,
        number: *mut u8,
        out: *mut f64, out_len: usize,
    ) -> u8;
}
