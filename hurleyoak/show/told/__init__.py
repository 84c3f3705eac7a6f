"""Sentences for a person, on each line that the program refuses, rejects or finds different by, and on each status."""
