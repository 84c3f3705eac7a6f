"""The program's build: who holds the lock, which program stands, and whether it is that of the sources."""
