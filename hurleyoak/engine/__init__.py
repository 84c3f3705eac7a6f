"""The proved program: where it is, its words and its input, and what it answers. It is never built from here."""
