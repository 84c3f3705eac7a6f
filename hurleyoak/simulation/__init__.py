"""How a crowd behaves: simulation, sweeps, curves and pictures. What comes from here is measured, and never proved."""
