"""From a text to a net or a bundle, and back: the `.pop` language, JSON, and the one reader of inputs."""
