//! How often each operation answered with each number, and what differed.
use std::collections::BTreeMap;

#[derive(Default)]
pub struct Tally {
    numbers: BTreeMap<&'static str, [u64; 17]>,
    /// Found and spent, of the sigma, zero and depth search.
    searches: [[u64; 2]; 3],
    pub passed: u64,
    pub failed: u64,
}

impl Tally {
    /// Notes an answer (0 accepted) and whether it was the right one; `say` tells what differs.
    pub fn note(&mut self, operation: &'static str, number: u8, right: bool, say: impl FnOnce() -> String) {
        self.numbers.entry(operation).or_default()[number.min(16) as usize] += 1;
        if right {
            self.passed += 1;
            return;
        }
        self.failed += 1;
        if self.failed <= 20 {
            println!("DIFFERS {operation}: {}", say());
        }
    }

    /// Notes a count of a search: 20 is spent.
    pub fn search(&mut self, which: usize, count: u8) {
        if count > 0 {
            self.searches[which][(count == 20) as usize] += 1;
        }
    }

    pub fn print(&self, title: &str) {
        println!("{title}");
        println!("{:<28} {:>9} {}", "operation", "accepted", (1..=16).map(|k| format!("{:>8}", format!("no. {k}"))).collect::<String>());
        for (name, n) in &self.numbers {
            println!("{name:<28} {:>9} {}", n[0], (1..=16).map(|k| format!("{:>8}", n[k])).collect::<String>());
        }
        let [s, z, d] = self.searches.map(|[found, spent]| format!("{found} found, {spent} spent"));
        println!("searches met in tables: sigma {s}; zero {z}; depth {d}");
    }
}
