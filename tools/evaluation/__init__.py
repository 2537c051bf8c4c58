"""Reads and evaluates the definitions of crates/*/specs, without the prover."""
