"""Reads edits of a crate, packs them, and reads what the prover says of them."""
