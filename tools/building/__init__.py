"""How `make` proves and builds: which crates there are (`listing`, `crates`), which kit is there (`kit`), and what `rt` is asked for (`run`).
A `record` identifies the programs. It says which of them are `ready`: those in the tree, which `keeping` stores, or those that were built."""
