"""Our saves opened by the usual programs, sgt-towers and sgt-unequal of Debian's package sgt-puzzles, without a window; and theirs by ours, solved, and
saved again byte for byte."""
