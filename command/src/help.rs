//! What --help says: each command with its options and an example.

pub const GENERAL: &str = "domthelv: Helmholtz energies of tank fluids after SAFT-VRQ Mie and SAFT-VR Mie, by the proved library

  domthelv energy   energies at a state or over many
  domthelv ends     energies with the two ends that enclose them
  domthelv pressure pressure and chemical potentials, from the energies' slopes
  domthelv saturation   vapour and liquid of a pure fluid in balance
  domthelv tank     energies of a tank in layers, with their two ends
  domthelv card     reads a fuel card, writes one, and moves one to the other form
  domthelv plot     pictures: isotherm, band, tank
  domthelv fluids   the named fluids and their sources
  domthelv COMMAND --help   more of a command, with an example

Units: temperatures in kelvin, lengths in ångström, densities in molecules per cubic ångström, masses in kilograms a molecule.
Energies are A / (V k T), per cubic ångström; of a tank, in kelvin. Times k T and 1e30 they are joules per cubic metre.
A refusal is a sentence with its number, the place and the limit. The status is 0, or 1 refused, 2 words or files not taken, 3 stopped.
";

const STATE: &str = "
The fluid is one of
  FILE                     a text file: model, [component NAME] and [pair NAME NAME]; the state may stand there too, under [state]
  --card CARD              a fuel card
  --fluid NAME,NAME        named fluids ('domthelv fluids' lists them)
The state, under [state] or here; what is given here goes before the file
  --temperature T          kelvin: numbers, or 'A to B in N' for N values in even steps
  --density D              of the whole mixture, per cubic ångström: numbers, or 'A to B in N'
  --densities 'D D'        instead, one for each component
  --fractions 'X X'        mole fractions; from the densities where they are left out
  --non-additive yes       the non-additive hard-sphere part too (SAFT-VRQ Mie)
  --chain yes              dispersion with the chain (SAFT-VR Mie)
Output
  --json                   JSON in place of a table
  --out FILE               into a file, which is whole or not there. Rows so far are in FILE.part: a run that was stopped goes on from there
  --stop-after N           stops after N states. On a terminal Enter stops a long run
";

const ENERGY: &str = "domthelv energy FILE | --card CARD | --fluid NAME   [options]

Hard sphere, dispersion and their sum at each temperature with each density (SAFT-VRQ Mie), or dispersion (SAFT-VR Mie).
";
const ENERGY_EXAMPLE: &str = "
Example
  domthelv energy command/examples/hydrogen.txt
  domthelv energy --fluid methane --temperature 150 --density '0.001 to 0.016 in 16' --chain yes --json
";
const ENDS: &str = "domthelv ends FILE | --card CARD | --fluid NAME   [options]

Each energy with the two ends that enclose it and what the same operations give without rounding.
";
const ENDS_EXAMPLE: &str = "
Example
  domthelv ends command/examples/hydrogen.txt
  domthelv ends command/examples/neon-hydrogen.txt --temperature '25 to 40 in 4' --out ends.txt
";
const PRESSURE: &str = "domthelv pressure FILE | --card CARD   [options]

Pressure, compressibility factor and residual chemical potential of each component (SAFT-VRQ Mie), from the slopes of the energies.
Pressures are in pascals, by Boltzmann's constant 1.380649e-23 J/K; the ideal gas is in them, and not in the potentials.
";
const PRESSURE_EXAMPLE: &str = "
Example
  domthelv pressure command/examples/hydrogen.txt
  domthelv pressure command/examples/hydrogen.txt --temperature '20 to 30 in 11' --density '0.001 to 0.02 in 20' --out rows.txt
";
const SATURATION: &str = "domthelv saturation FILE | --card CARD   [--temperature T] [--json] [--out FILE]

Vapour and liquid of a pure fluid (SAFT-VRQ Mie) at equal pressure and equal chemical potential, at each temperature; what is left
of both differences, and how many steps it took.

Example
  domthelv saturation command/examples/hydrogen.txt --temperature '18 to 28 in 11'
";
const TANK: &str = "domthelv tank FILE [--json] [--out FILE]

The energies of a tank at rest in 1 to 32 layers, listed from the bottom up under [layer]: temperature, density (or densities),
fractions, volume in cubic ångström (1 m³ is 1e30). Under [tank] may stand non-additive = yes.

Example
  domthelv tank command/examples/tank.txt
";
const CARD: &str = "domthelv card read CARD [--json]
domthelv card write FILE --out CARD
domthelv card move CARD --to newer|older --out CARD

write puts the components and pairs of a text file, at most eight, on a card of the older form; names are not on it. read shows what is on a fuel card, older or newer, once the library has read it. move writes it in the other form: the newer one spares
pair values that are +0 and holds twelve components, the older one eight.

Example
  domthelv card read boat.card
  domthelv card write command/examples/neon-hydrogen.txt --out boat.card
  domthelv card move boat.card --to newer --out newer.card
";
const PLOT: &str = "domthelv plot isotherm|band FILE | --card CARD | --fluid NAME   [options of energy] [--out FILE.svg] [--magnify N]
domthelv plot tank FILE [--out FILE.svg] [--magnify N]

Writes a picture as SVG, and says where it is.
  isotherm   energies, or the pressure, over density at each temperature, with the band of the two ends drawn magnified; spent searches are marked
  band       how far the two ends lie from each energy, over density
  tank       a tank's layers with their energies and the band of each
  --of pressure   an isotherm of the pressure in place of the energies (SAFT-VRQ Mie); slopes have no two ends, and no band is drawn
  --magnify N   how many times wider than it is the band is drawn; chosen so that it can be seen where it is left out

Example
  domthelv plot isotherm command/examples/isotherm.txt --out isotherm.svg
  domthelv plot tank command/examples/tank.txt
";
const FLUIDS: &str = "domthelv fluids [--json]

The named fluids with their parameters, source and what they were fitted for. fluids/README.md says which are left out, and why.

Example
  domthelv fluids
";

/// The help of a command, or of all.
pub fn of(command: &str) -> String {
    match command {
        "energy" => [ENERGY, STATE, ENERGY_EXAMPLE].concat(),
        "ends" => [ENDS, STATE, ENDS_EXAMPLE].concat(),
        "pressure" => [PRESSURE, STATE, PRESSURE_EXAMPLE].concat(),
        "saturation" => SATURATION.into(),
        "tank" => TANK.into(),
        "card" => CARD.into(),
        "plot" => PLOT.into(),
        "fluids" => FLUIDS.into(),
        _ => GENERAL.into(),
    }
}
