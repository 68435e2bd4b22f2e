"""Words, games, the file to load and the file to save to, as rows that `runs` runs; games as transcripts in `played/`."""
