//! The named fluids are those of their source, number by number.
mod common;
use common::{domthelv, json, root};
use std::fs;

/// The numbers of each record of the Rust's test parameters, and whether it associates.
fn of_source() -> Vec<(String, Vec<f64>, bool)> {
    let text = fs::read_to_string(root().join("docs/src/crates/feos/src/saftvrmie/parameters.rs")).unwrap();
    let records = text.split("parameters.insert(").skip(1).map(|part| {
        let name = part.split('"').nth(1).unwrap().replace(' ', "-");
        let inner = part.split("SaftVRMieRecord::new(").nth(1).unwrap().split(')').next().unwrap();
        (name, inner.split(',').map(|x| x.trim().parse().unwrap()).collect(), part.contains("with_association"))
    });
    records.collect()
}

#[test]
fn each_named_fluid_has_the_numbers_of_the_rusts_test_parameters() {
    let listed = json(&domthelv(&["fluids", "--json"]).out);
    let source = of_source();
    let taken: Vec<_> = source.iter().filter(|(_, _, associates)| !associates).collect();
    assert_eq!((source.len(), listed.list().len()), (27, taken.len()));
    for fluid in listed.list() {
        let common::Json::Text(name) = fluid.get("name") else { panic!("no name") };
        let (_, numbers, _) = taken.iter().find(|(known, _, _)| known == name).unwrap_or_else(|| panic!("{name} is not in the source"));
        let held: Vec<f64> = ["m", "sigma", "epsilon_k", "lr", "la"].map(|key| fluid.get(key).number()).into();
        assert_eq!(&held, numbers, "{name}");
    }
}

#[test]
fn each_file_of_the_folder_is_a_named_fluid_and_says_where_it_is_from() {
    let mut names: Vec<String> =
        fs::read_dir(root().join("fluids")).unwrap().map(|f| f.unwrap().file_name().into_string().unwrap()).collect();
    names.retain(|n| n != "README.md");
    let listed = json(&domthelv(&["fluids", "--json"]).out);
    assert_eq!(names.len(), listed.list().len());
    for fluid in listed.list() {
        for key in ["source", "conditions"] {
            let common::Json::Text(text) = fluid.get(key) else { panic!("no {key}") };
            assert!(text.len() > 20);
        }
    }
}
