//! Fuel cards are shown as they lie, and a bad one is told by number, place and limit.
mod common;
use common::{domthelv, folder, json, text_of};
use std::fs;

/// Bits, most significant first.
fn packed(fields: &[(u32, u64)]) -> Vec<u8> {
    let bits: Vec<bool> = fields.iter().flat_map(|&(w, v)| (0..w).rev().map(move |k| v >> k & 1 == 1)).collect();
    bits.chunks(8).map(|c| c.iter().enumerate().map(|(k, &b)| (b as u8) << (7 - k)).sum()).collect()
}

fn float(x: f64) -> (u32, u64) {
    (64, x.to_bits())
}

/// Hydrogen and neon with a pair value, or with sigma of neon changed.
fn card(sigma: f64, order: u64) -> Vec<u8> {
    let mut fields = vec![(2, 0), (4, 2)];
    fields.extend([3.0243, 26.706, 9.0, 6.0, 3.3474472e-27].map(float));
    fields.push((2, 1));
    fields.extend([sigma, 37.501, 13.0, 6.0, 3.35092e-26].map(float));
    fields.extend([(2, order), float(0.105), float(0.0)]);
    packed(&fields)
}

#[test]
fn a_card_is_shown_field_by_field() {
    let path = folder("card").join("boat.card");
    fs::write(&path, card(2.7778, 1)).unwrap();
    let done = domthelv(&["card", "read", text_of(&path), "--json"]);
    let shown = json(&done.out);
    let components = shown.get("components").list();
    assert_eq!((done.status, components.len(), shown.get("bytes").number()), (0, 2, 98.0));
    assert_eq!(
        (components[1].get("sigma").number(), components[0].get("mass").number(), components[1].get("order").number()),
        (2.7778, 3.3474472e-27, 1.0)
    );
    assert_eq!(shown.get("pairs").list()[0].get("k_ij").number(), 0.105);
    assert!(domthelv(&["card", "read", text_of(&path)]).out.contains("0.105"));
}

/// The newer card of hydrogen and neon with these fields for its pair.
fn newer(pair: &[(u32, u64)]) -> Vec<u8> {
    let mut fields = vec![(2, 2), (4, 2)];
    for component in [[3.0243, 26.706, 9.0, 6.0, 3.3474472e-27], [2.7778, 37.501, 13.0, 6.0, 3.35092e-26]] {
        fields.extend(component.map(float));
        fields.push((2, 1));
    }
    fields.extend(pair);
    packed(&fields)
}

#[test]
fn a_newer_card_is_shown_and_worked_too() {
    let room = folder("newer");
    let (old, new) = (room.join("old.card"), room.join("new.card"));
    fs::write(&old, card(2.7778, 1)).unwrap();
    fs::write(&new, newer(&[(1, 1), float(0.105), (1, 0)])).unwrap();
    let read = |path| json(&domthelv(&["card", "read", text_of(path), "--json"]).out);
    for part in ["components", "pairs"] {
        assert_eq!(read(&old).get(part), read(&new).get(part));
    }
    let state = ["--temperature", "30", "--densities", "0.01 0.02", "--json"];
    let row = |path| json(&domthelv(&[&["ends", "--card", text_of(path)], &state[..]].concat()).out).get("rows").clone();
    assert_eq!(row(&old), row(&new));
}

#[test]
fn a_cards_energies_are_those_of_the_same_file() {
    let room = folder("energies");
    let (path, file) = (room.join("boat.card"), room.join("boat.txt"));
    fs::write(&path, card(2.7778, 1)).unwrap();
    let text = fs::read_to_string(common::root().join("command/examples/neon-hydrogen.txt")).unwrap();
    fs::write(&file, text.replace("k_ij = 0", "k_ij = 0.105")).unwrap();
    let state = ["--temperature", "30", "--densities", "0.01 0.02", "--json"];
    let by_card = json(&domthelv(&[&["ends", "--card", text_of(&path)], &state[..]].concat()).out);
    // the file has neon first
    let by_file =
        json(&domthelv(&["ends", text_of(&file), "--temperature", "30", "--densities", "0.02 0.01", "--non-additive", "no", "--json"]).out);
    let of = |d: &common::Json| d.get("rows").list()[0].get("dispersion").number();
    assert!((of(&by_card) - of(&by_file)).abs() < 1e-13, "{} {}", of(&by_card), of(&by_file));
}

#[test]
fn bad_cards_are_told() {
    let path = folder("bad_cards").join("bad.card");
    let good = card(2.7778, 1);
    let longer = [&good[..], &[0]].concat();
    let mut filled = good.clone();
    *filled.last_mut().unwrap() |= 1;
    let zero = newer(&[(1, 1), float(0.0), (1, 0)]);
    let cases: [(&[u8], &str); 10] = [
        (&[], "refused (9): 0 bytes, too short for model and count"),
        (&good[..50], "refused (9): 50 bytes; a card of 2 components has 98"),
        (&[0b1000_1000], "refused (9): 1 bytes; they end before the fields of 2 components do"),
        (&[0b1011_0100], "refused (10): model 2 and 13 components; the limit is 1 to 12 components"),
        (&[0b0010_0100], "refused (10): model 0 and 9 components; the limit is 1 to 8 components"),
        (&zero, "refused (15): a pair's +0 is stored"),
        (&longer, "refused (11): 99 bytes; this card's fields end after 98"),
        (&filled, "refused (11): a filling bit of the last byte is 1"),
        (&card(17.0, 1), "refused (2): sigma of component 2 is 17 Å; the limit is from 0.5 to 16 Å"),
        (&card(2.7778, 3), "refused (4): order of component 2 is 3; the limit is 0, 1 or 2"),
    ];
    for (bytes, sentence) in cases {
        fs::write(&path, bytes).unwrap();
        let done = domthelv(&["card", "read", text_of(&path)]);
        assert!(
            done.status == 1 && done.err.contains(sentence) && done.err.contains("bad.card") && done.out.is_empty(),
            "{sentence}: {}",
            done.err
        );
    }
}

#[test]
fn any_bytes_as_a_card_end_well() {
    let path = folder("any_bytes").join("any.card");
    let mut x = 1u64;
    for length in 0..60 {
        let bytes: Vec<u8> = (0..length * 7)
            .map(|_| {
                x = x.wrapping_mul(6364136223846793005).wrapping_add(1442695040888963407);
                (x >> 56) as u8
            })
            .collect();
        fs::write(&path, &bytes).unwrap();
        let done = domthelv(&["card", "read", text_of(&path)]);
        assert!(done.status == 1 && done.err.contains("refused ("), "{}", done.err);
    }
}

#[test]
fn a_card_is_moved_to_the_newer_form_and_back() {
    let room = folder("moved");
    let (old, new, back) = (room.join("old.card"), room.join("new.card"), room.join("back.card"));
    fs::write(&old, card(2.7778, 1)).unwrap();
    let done = domthelv(&["card", "move", text_of(&old), "--to", "newer", "--out", text_of(&new)]);
    assert!(done.status == 0 && done.out.contains("bytes"), "{}", done.err);
    assert_eq!(fs::read(&new).unwrap(), newer(&[(1, 1), float(0.105), (1, 0)]));
    assert_eq!(domthelv(&["card", "move", text_of(&new), "--to", "older", "--out", text_of(&back)]).status, 0);
    assert_eq!(fs::read(&back).unwrap(), card(2.7778, 1));
}

#[test]
fn a_card_that_cannot_be_moved_is_told_and_nothing_is_written() {
    let room = folder("not_moved");
    let (path, out) = (room.join("bad.card"), room.join("out.card"));
    let mut nine = vec![(2, 3), (4, 9)];
    for _ in 0..9 {
        nine.extend([1.0, 3.7412, 153.36, 12.65, 6.0].map(float));
    }
    nine.extend(vec![(1, 0); 72]);
    let good = card(2.7778, 1);
    let cases: [(Vec<u8>, &str, i32, &str); 5] = [
        (packed(&nine), "older", 1, "refused (16): 9 components; the limit of an older card is 1 to 8"),
        (good[..40].to_vec(), "newer", 1, "refused (9): 40 bytes; a card of 2 components has 98"),
        (good.clone(), "older", 2, "is an older card already"),
        (newer(&[(1, 1), float(0.0), (1, 0)]), "older", 1, "refused (15)"),
        (good, "sideways", 2, "--to newer or --to older"),
    ];
    for (bytes, to, status, sentence) in cases {
        fs::write(&path, bytes).unwrap();
        let done = domthelv(&["card", "move", text_of(&path), "--to", to, "--out", text_of(&out)]);
        assert!(done.status == status && done.err.contains(sentence), "{sentence}: {}", done.err);
    }
    assert!(!out.exists());
}

#[test]
fn a_files_card_is_written_and_reads_back_to_the_same_numbers() {
    let room = folder("written");
    let out = room.join("boat.card");
    let done = domthelv(&["card", "write", "command/examples/neon-hydrogen.txt", "--out", text_of(&out)]);
    assert!(done.status == 0 && done.out.contains("98 bytes"), "{} {}", done.out, done.err);
    let shown = json(&domthelv(&["card", "read", text_of(&out), "--json"]).out);
    assert_eq!(shown.get("components").list()[0].get("mass").number(), 3.35092e-26);
    let state = ["--temperature", "30", "--densities", "0.01 0.01", "--non-additive", "yes", "--json"];
    let by_card = json(&domthelv(&[&["ends", "--card", text_of(&out)], &state[..]].concat()).out);
    let by_file = json(&domthelv(&["ends", "command/examples/neon-hydrogen.txt", "--json"]).out);
    for key in ["hard_sphere", "dispersion", "non_additive_high"] {
        assert_eq!(by_card.get("rows").list()[0].get(key), by_file.get("rows").list()[0].get(key));
    }
    assert_eq!(domthelv(&["card", "write", "fluids/methane.txt", "--out", text_of(&out)]).status, 0);
    assert_eq!(json(&domthelv(&["card", "read", text_of(&out), "--json"]).out).get("components").list()[0].get("sigma").number(), 3.7412);
}

#[test]
fn a_file_that_makes_no_card_is_told_and_nothing_is_written() {
    let room = folder("not_written");
    let (path, out) = (room.join("file.txt"), room.join("out.card"));
    let component = |k: usize, sigma: f64| format!("[component x{k}]\nm = 1\nsigma = {sigma}\nepsilon_k = 100\nlr = 12\nla = 6\n");
    let file = |n: usize, sigma: f64| (0..n).fold("model = mie\n".to_string(), |text, k| text + &component(k, sigma));
    for (text, sentence) in [
        (file(9, 3.0), "refused (10): 9 components; the limit of an older card is 1 to 8"),
        (file(2, 0.1), "refused (2): sigma of component x0 is 0.1 Å"),
    ] {
        fs::write(&path, text).unwrap();
        let done = domthelv(&["card", "write", text_of(&path), "--out", text_of(&out)]);
        assert!(done.status == 1 && done.err.contains(sentence), "{}", done.err);
    }
    fs::write(&path, file(8, 3.0)).unwrap();
    assert_eq!(domthelv(&["card", "write", text_of(&path)]).status, 2);
    assert!(!out.exists());
    assert_eq!(domthelv(&["card", "write", text_of(&path), "--out", text_of(&out)]).status, 0);
}
