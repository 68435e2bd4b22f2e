"""The page in browsers: whole games, what it keeps, what may go wrong, how it looks; and its modules by themselves."""
