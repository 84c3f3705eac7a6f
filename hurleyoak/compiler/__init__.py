"""Succinct nets for predicates, with their proofs: O(log s) states for constants of the size s.

Nothing here is proved for all parameters. Each bundle is given to the program's `check` before anybody sees it.
"""
