"""Finds proofs and counterexamples. Nothing that it finds is trusted: the proved program checks and plays it."""
