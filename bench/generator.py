"""Pieces of the plain Rust programs: random words, Xoshiro256++ with a state that SplitMix64 makes from a seed; and
numerals that are kept."""

from common import source

WORDS = source("plain/words.rs")

NUMERALS = source("plain/numerals.rs")
