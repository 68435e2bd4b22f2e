"""How our own scripts are written: the types and the style of all Python, and all shell."""
