"""The use of the programs that are ready: a note tells of them (`note`), they are put where they are used (`places`, `installing`), and packed to be
taken elsewhere (`archives`)."""
