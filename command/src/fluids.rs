//! The named fluids: the files of the folder fluids/, held in the program.
use crate::input::lines::{Document, document, shown};
use crate::input::mixture::{Mixture, mixture};
use crate::trouble::Trouble;

macro_rules! fluids {
    ($($name:literal)*) => {
        /// Names and texts, in the order of a list.
        pub static FLUIDS: &[(&str, &str)] = &[$(($name, include_str!(concat!("../../fluids/", $name, ".txt")))),*];
    };
}
fluids! {
    "methane" "ethane" "propane" "n-butane" "pentane" "hexane" "heptane" "octane" "nonane" "decane" "dodecane" "pentadecane"
    "eicosane" "tetrafluoromethane" "hexafluoroethane" "perfluoropropane" "perfluorobutane" "perfluoropentane" "perfluorohexane"
    "fluorine" "carbon-dioxide" "benzene" "toluene"
}

/// A named fluid's file.
pub fn file(name: &str) -> Result<Document, Trouble> {
    let Some((name, text)) = FLUIDS.iter().find(|(n, _)| *n == name) else {
        return Err(Trouble::words(format!(
            "no fluid is called {}: 'domthelv fluids' lists them, fluids/README.md says which are left out and why",
            shown(name)
        )));
    };
    document(&format!("fluids/{name}.txt"), text)
}

pub fn find(name: &str) -> Result<Mixture, Trouble> {
    mixture(&file(name)?, &[])
}
