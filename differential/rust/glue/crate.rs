// Taken in by lib.rs; the modules stand beside this file.
pub mod hard_sphere;
pub mod saftvrmie;
pub mod saftvrqmie;
