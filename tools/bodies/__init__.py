"""Wrong bodies and their twins.

edits     reads the files of a crate, and applies edits
sources   in which functions they stand, and by what name the prover knows those
kit       what of the kit is used, and the copy of crates in which they are tried
trial     the edits of a crate, tried together, and what the prover said
outcomes  what comes of wrong bodies and twins, with what earlier runs have found
kept      where that is kept
asked     what is to be tried of the crates, side by side
"""
