//! A fuel card as a mixture. The library says whether a card reads well; its fields are then laid out here to be shown.
use crate::input::mixture::{Component, Given, Mixture, Pair};
use crate::model::Model;
use crate::refused;
use crate::set::{self, Set};
use crate::trouble::Trouble;
use domthelv_sys::Refusal;
use domthelv_sys::safe::{self, Card};
use domthelv_sys::sizes::SIDE;

/// The most components of an older card.
pub const CARD_SIDE: usize = 8;

/// The bits of a card from the most significant on, field by field.
struct Fields<'a> {
    card: &'a [u8],
    at: usize,
}

impl Fields<'_> {
    fn next(&mut self, width: usize) -> Option<u64> {
        let mut value = 0;
        for at in self.at..self.at + width {
            value = value << 1 | u64::from(self.card.get(at / 8)? >> (7 - at % 8) & 1);
        }
        self.at += width;
        Some(value)
    }
    fn given(&mut self) -> Option<Given> {
        self.next(64).map(|bits| Given { value: f64::from_bits(bits), line: 0 })
    }
}

/// Model and count of a card, as its first six bits say them.
pub fn heading(card: &[u8]) -> Option<(u64, usize)> {
    let mut fields = Fields { card, at: 0 };
    Some((fields.next(2)?, fields.next(4)? as usize))
}

/// Whether a card says that it is of the newer form.
pub fn is_newer(card: &[u8]) -> bool {
    heading(card).is_some_and(|(model, _)| model >= 2)
}

/// The bytes of an older card of so many components.
fn length(model: Model, count: usize) -> usize {
    let component = if model == Model::Quantum { 5 * 64 + 2 } else { 5 * 64 };
    (6 + count * component + count * count.saturating_sub(1) / 2 * 128).div_ceil(8)
}

fn model_of(number: u64) -> Model {
    if number % 2 == 0 { Model::Quantum } else { Model::Mie }
}

fn component(fields: &mut Fields, model: Model, at: usize) -> Option<Component> {
    let values = match model {
        Model::Mie => (0..5).map(|_| fields.given()).collect::<Option<Vec<_>>>()?,
        Model::Quantum => {
            let mut values = vec![Given { value: 1.0, line: 0 }];
            for _ in 0..5 {
                values.push(fields.given()?);
            }
            values.push(Given { value: fields.next(2)? as f64, line: 0 });
            values
        }
    };
    Some(Component { name: (at + 1).to_string(), line: 0, values })
}

/// A pair's number; a newer card spares +0, and has a bit before what it stores.
fn of_pair(fields: &mut Fields, newer: bool) -> Option<Given> {
    if newer && fields.next(1)? == 0 { Some(Given { value: 0.0, line: 0 }) } else { fields.given() }
}

/// The fields of a card that is long enough for them, and the bytes that they take.
fn laid_out(name: &str, card: &[u8]) -> Option<(Mixture, usize)> {
    let mut fields = Fields { card, at: 0 };
    let (newer, model) = (is_newer(card), model_of(fields.next(2)?));
    let count = fields.next(4)? as usize;
    let components = (0..count).map(|at| component(&mut fields, model, at)).collect::<Option<Vec<_>>>()?;
    let mut pairs = vec![];
    for i in 0..count {
        for j in i + 1..count {
            pairs.push(Pair { line: 0, i, j, values: [of_pair(&mut fields, newer)?, of_pair(&mut fields, newer)?] });
        }
    }
    Some((Mixture { file: name.into(), model, components, pairs }, fields.at.div_ceil(8)))
}

/// Why a card is too short for its fields.
fn too_short(card: &[u8]) -> String {
    match heading(card) {
        None => format!("{} bytes, too short for model and count", card.len()),
        Some((model, count)) if model < 2 => {
            format!("{} bytes; a card of {count} components has {}", card.len(), length(model_of(model), count))
        }
        Some((_, count)) => format!("{} bytes; they end before the fields of {count} components do", card.len()),
    }
}

/// Why a card is refused: its length, its heading, its filling, or a number on it.
fn refused(name: &str, card: &[u8], refusal: Refusal) -> String {
    let (model, count) = heading(card).unwrap_or_default();
    let most = if is_newer(card) { SIDE } else { CARD_SIDE };
    let found = match refusal {
        Refusal::ShortCard => too_short(card),
        Refusal::CardHeading => format!("model {model} and {count} components; the limit is 1 to {most} components"),
        Refusal::CardFilling => match laid_out(name, card) {
            Some((_, length)) if card.len() > length => format!("{} bytes; this card's fields end after {length}", card.len()),
            _ => "a filling bit of the last byte is 1; the limit is 0".into(),
        },
        Refusal::TooMany => format!("{count} components; the limit of an older card is 1 to {CARD_SIDE}"),
        Refusal::StoredZero => "a pair's +0 is stored; the limit is to spare it".into(),
        _ => return laid_out(name, card).map_or(refusal.to_string(), |(m, _)| refused::of_parameters(&m, refusal)),
    };
    format!("refused ({}): {found} ({name})", refusal.number())
}

/// A card's set and its fields.
pub fn read(name: &str, card: &[u8]) -> Result<(Set, Mixture), Trouble> {
    let set = Set::of_card(card).map_err(|r| Trouble::refused(refused(name, card, r)))?;
    match laid_out(name, card) {
        Some((m, _)) => Ok((set, m)),
        None => Err(Trouble::refused(format!("{name}: read by the library, and not laid out here"))),
    }
}

/// A card in the other form, by the library.
pub fn moved(name: &str, card: &[u8], to_newer: bool) -> Result<Card, Trouble> {
    if heading(card).is_some() && is_newer(card) == to_newer {
        let form = if to_newer { "a newer" } else { "an older" };
        return Err(Trouble::words(format!("{name}: is {form} card already")));
    }
    let by = if to_newer { safe::card_to_newer } else { safe::card_to_older };
    by(card).map_err(|r| Trouble::refused(refused(name, card, r)))
}

/// A mixture as an older card, by the library.
pub fn written(m: &Mixture) -> Result<Card, Trouble> {
    set::card_of(m).map_err(|r| {
        let count = m.components.len();
        Trouble::refused(match r {
            Refusal::CardHeading => {
                format!("refused ({}): {count} components; the limit of an older card is 1 to {CARD_SIDE} ({})", r.number(), m.file)
            }
            _ => refused::of_parameters(m, r),
        })
    })
}
