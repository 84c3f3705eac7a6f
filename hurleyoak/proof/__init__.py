"""Proofs as data: layers, nodes, facts and cases, where a proof fails first, and how two proofs are joined."""
