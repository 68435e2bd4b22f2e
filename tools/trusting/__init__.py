"""The texts that have to be read to believe each promise: the definitions (`definitions`), the contracts that cite them (`contracts`), all that is reached from there
(`closure`), the sentences and their contracts (`promises`), the parts that docs/PROMISES.md names (`parts`), and the page that has the numbers (`page`)."""
