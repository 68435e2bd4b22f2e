"""The scripts in a copy elsewhere, a `place`, or in a `small` repository there, with a command `rt` that proves nothing."""
