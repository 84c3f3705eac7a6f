"""One text for each command: shown by `pop help`, printed as a manual page, and made into completions for two
shells."""
