"""The words that `specs/` and `proofs/` declare (`declared`), and those of them that other files use (`cited`)."""
