"""How `tools/definitions` reads the sources: which definitions a clause speaks of, as pages to read."""
