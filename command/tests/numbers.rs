//! The numbers that the command shows are those of the library's calls, bit for bit.
mod common;
use common::{domthelv, json};
use domthelv_sys::safe::{self, Layers, MieComponents, QuantumComponents, State};

fn hydrogen() -> safe::QuantumSet {
    let c = QuantumComponents {
        m: &[1.0],
        sigma: &[3.0243],
        epsilon_k: &[26.706],
        lr: &[9.0],
        la: &[6.0],
        mass: &[3.3474472e-27],
        order: &[1],
        k_ij: &[0.0],
        l_ij: &[0.0],
    };
    safe::quantum_parameters(&c).unwrap()
}

#[test]
fn energies_of_hydrogen_are_the_librarys() {
    let done = domthelv(&["energy", "command/examples/hydrogen.txt", "--json"]);
    assert_eq!((done.status, done.err.as_str()), (0, ""));
    let set = hydrogen();
    let state = State { temperature: 25.0, fractions: &[1.0], densities: &[0.019] };
    let table = set.table(25.0).unwrap().values;
    let (e, t) = (set.energies(&state, &table, false).unwrap(), set.total(&state, &table, false).unwrap());
    let row = &json(&done.out).get("rows").list()[0].clone();
    assert_eq!(row.get("hard_sphere").number(), e.hard_sphere);
    assert_eq!(row.get("dispersion").number(), e.dispersion);
    assert_eq!((row.get("residual").number(), row.get("remainder").number()), (t.last.sum, t.first.remainder));
}

#[test]
fn two_ends_of_a_mixture_are_the_librarys() {
    let done = domthelv(&["ends", "command/examples/neon-hydrogen.txt", "--temperature", "28 30", "--json"]);
    assert_eq!(done.status, 0, "{}", done.err);
    let c = QuantumComponents {
        m: &[1.0, 1.0],
        sigma: &[2.7778, 3.0243],
        epsilon_k: &[37.501, 26.706],
        lr: &[13.0, 9.0],
        la: &[6.0, 6.0],
        mass: &[3.35092e-26, 3.3474472e-27],
        order: &[1, 1],
        k_ij: &[0.0; 4],
        l_ij: &[0.0; 4],
    };
    let set = safe::quantum_parameters(&c).unwrap();
    let document = json(&done.out);
    for (row, temperature) in document.get("rows").list().iter().zip([28.0, 30.0]) {
        let state = State { temperature, fractions: &[0.5, 0.5], densities: &[0.01, 0.01] };
        let table = set.table(temperature).unwrap().values;
        let (e, b) = (set.energies(&state, &table, true).unwrap(), set.energies_ends(&state, &table, true).unwrap());
        for (key, x, ends) in [
            ("hard_sphere", e.hard_sphere, b.hard_sphere),
            ("dispersion", e.dispersion, b.dispersion),
            ("non_additive", e.non_additive, b.non_additive),
        ] {
            assert_eq!(row.get(key).number(), x);
            assert_eq!(row.get(&format!("{key}_low")).number(), ends.low);
            assert_eq!(row.get(&format!("{key}_high")).number(), ends.high);
            assert_eq!(row.get(&format!("{key}_width")).number(), ends.high - ends.low);
        }
    }
}

#[test]
fn a_named_fluid_has_the_energy_of_its_parameters() {
    let done = domthelv(&["ends", "--fluid", "methane", "--temperature", "150", "--density", "0.0135", "--chain", "yes", "--json"]);
    let c = MieComponents { m: &[1.0], sigma: &[3.7412], epsilon_k: &[153.36], lr: &[12.65], la: &[6.0], k_ij: &[0.0], gamma_ij: &[0.0] };
    let set = safe::mie_parameters(&c).unwrap();
    let mut d = [0.0];
    set.diameters(150.0, &mut d).unwrap();
    let state = State { temperature: 150.0, fractions: &[1.0], densities: &[0.0135] };
    let document = json(&done.out);
    let row = &document.get("rows").list()[0];
    assert_eq!(row.get("dispersion_chain").number(), set.dispersion(&state, &d, true).unwrap());
    assert_eq!(row.get("dispersion_chain_low").number(), set.dispersion_ends(&state, &d, true).unwrap().low);
}

#[test]
fn a_tank_has_the_librarys_energies_and_ends() {
    let done = domthelv(&["tank", "command/examples/tank.txt", "--json"]);
    assert_eq!(done.status, 0, "{}", done.err);
    let lent =
        Layers { temperatures: &[20.0, 22.0, 25.0], fractions: &[1.0; 3], densities: &[0.021, 0.0205, 0.019], volumes: &[2.5e29; 3] };
    let (e, b) = (hydrogen().tank(&lent, false).unwrap(), hydrogen().tank_ends(&lent, false).unwrap());
    let document = json(&done.out);
    let rows = document.get("tank").list();
    for (row, (x, ends)) in rows.iter().zip([(e.hard_sphere, b.hard_sphere), (e.dispersion, b.dispersion)]) {
        assert_eq!((row.get("value").number(), row.get("low").number(), row.get("high").number()), (x, ends.low, ends.high));
    }
    assert_eq!((rows.len(), document.get("layers").list().len()), (2, 3));
}

#[test]
fn tables_and_json_have_the_same_numbers_and_come_out_the_same_each_time() {
    let words = ["ends", "command/examples/isotherm.txt"];
    let (first, second, as_json) = (domthelv(&words), domthelv(&words), domthelv(&["ends", "command/examples/isotherm.txt", "--json"]));
    assert_eq!(first.out, second.out);
    let rows = json(&as_json.out);
    let lines: Vec<&str> = first.out.lines().skip(2).collect();
    assert_eq!((lines.len(), rows.get("rows").list().len()), (90, 90));
    for (line, row) in lines.iter().zip(rows.get("rows").list()) {
        let cells: Vec<&str> = line.split_whitespace().collect();
        for (at, key) in ["temperature", "density_hydrogen", "hard_sphere", "hard_sphere_low"].iter().enumerate() {
            assert_eq!(cells[at].parse::<f64>().unwrap(), row.get(key).number());
        }
    }
}

#[test]
fn spent_searches_are_told() {
    let done = domthelv(&["energy", "command/examples/spent.txt", "--density", "0.001"]);
    assert!(done.out.contains("sigma of made-up and made-up; depth of made-up and made-up"), "{}", done.out);
}
