"""Generated nets on which `find` is measured."""
