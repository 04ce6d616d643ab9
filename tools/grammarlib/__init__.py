"""Reads the table of the written grammar from the specifications, checks it, and writes what the proofs need of each rule."""
