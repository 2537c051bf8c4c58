//! The library's sets: from a mixture or a card.
use crate::card;
use crate::input::grid::State;
use crate::input::mixture::Mixture;
use crate::model::Model;
use domthelv_sys::Refusal;
use domthelv_sys::safe::{self, Card, CardSet, MieComponents, MieSet, QuantumComponents, QuantumSet};

// of both models; a set is made once a run, and its size on the stack is no matter
#[allow(clippy::large_enum_variant)]
#[derive(Debug, Clone)]
pub enum Set {
    Quantum(QuantumSet),
    Mie(MieSet),
}

/// Lends a quantum mixture's lists to a call of the library.
fn quantum<T>(m: &Mixture, call: impl Fn(&QuantumComponents) -> Result<T, Refusal>) -> Result<T, Refusal> {
    let order: Vec<u8> = m.list("order").iter().map(|x| *x as u8).collect();
    call(&QuantumComponents {
        m: &m.list("m"),
        sigma: &m.list("sigma"),
        epsilon_k: &m.list("epsilon_k"),
        lr: &m.list("lr"),
        la: &m.list("la"),
        mass: &m.list("mass"),
        order: &order,
        k_ij: &m.pair_list(0),
        l_ij: &m.pair_list(1),
    })
}

fn mie<T>(m: &Mixture, call: impl Fn(&MieComponents) -> Result<T, Refusal>) -> Result<T, Refusal> {
    call(&MieComponents {
        m: &m.list("m"),
        sigma: &m.list("sigma"),
        epsilon_k: &m.list("epsilon_k"),
        lr: &m.list("lr"),
        la: &m.list("la"),
        k_ij: &m.pair_list(0),
        gamma_ij: &m.pair_list(1),
    })
}

impl Set {
    pub fn of(m: &Mixture) -> Result<Set, Refusal> {
        match m.model {
            Model::Quantum => quantum(m, safe::quantum_parameters).map(Set::Quantum),
            Model::Mie => mie(m, safe::mie_parameters).map(Set::Mie),
        }
    }
    /// By the newer reader where the card says that it is newer.
    pub fn of_card(card: &[u8]) -> Result<Set, Refusal> {
        let read = if card::is_newer(card) { safe::newer_card_parameters } else { safe::card_parameters };
        read(card).map(|set| match set {
            CardSet::Quantum(set) => Set::Quantum(set),
            CardSet::Mie(set) => Set::Mie(set),
        })
    }
    pub fn model(&self) -> Model {
        match self {
            Set::Quantum(_) => Model::Quantum,
            Set::Mie(_) => Model::Mie,
        }
    }
    pub fn count(&self) -> usize {
        match self {
            Set::Quantum(set) => set.count,
            Set::Mie(set) => set.count,
        }
    }
}

/// A mixture's card, in the older form.
pub fn card_of(m: &Mixture) -> Result<Card, Refusal> {
    match m.model {
        Model::Quantum => quantum(m, safe::quantum_card),
        Model::Mie => mie(m, safe::mie_card),
    }
}

impl State {
    /// As the library takes it.
    pub fn lent(&self) -> safe::State<'_> {
        safe::State { temperature: self.temperature, fractions: &self.fractions, densities: &self.densities }
    }
}
