//! Helmholtz energies after SAFT-VRQ Mie and SAFT-VR Mie.
//!
//! [`raw`] declares the C boundary, include/domthelv.h. [`safe`] takes slices and gives a value or a [`Refusal`].
//! [`sizes`] has the lengths of lists and where sheets start.
//! [`accessors`] gives sets and tables their entries by name. Nothing is allocated, and only `core` is used.
//!
//! A list that does not live as long as it is lent, or has other elements, is no program:
//!
//! ```compile_fail
//! let state = { let f = vec![0.5]; domthelv_sys::safe::State { temperature: 30.0, fractions: &f, densities: &[0.01] } };
//! println!("{}", state.temperature);
//! ```
//! ```compile_fail
//! let state = domthelv_sys::safe::State { temperature: 30.0, fractions: &[0.5f32], densities: &[0.01] };
//! ```
//!
//! Nor is a desk made of lists from elsewhere, nor served in two places at once:
//!
//! ```compile_fail
//! let desk = domthelv_sys::safe::Desk { floats: [0.0; 23632], bytes: [0; 2369] };
//! ```
//! ```compile_fail
//! let mut desk = domthelv_sys::safe::Desk::new();
//! let (a, b) = (&mut desk, &mut desk);
//! a.serve();
//! b.serve();
//! ```
//!
//! Link `libdomthelv.a`: the build takes it from `DOMTHELV_LIB_DIR`, or from target/staticlib of the repository.
#![cfg_attr(not(test), no_std)]
pub mod accessors;
pub mod raw;
pub mod safe;
pub mod sizes;

pub use safe::Refusal;
