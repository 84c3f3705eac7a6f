"""Protocols themselves: predicates, nets, combinations, and what two agents become when they meet."""
