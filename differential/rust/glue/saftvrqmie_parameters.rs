// The file of docs/src, and the one import that its renamed calls need.
use num_dual::DualNum as _;
include!("feos_parameters.rs");
