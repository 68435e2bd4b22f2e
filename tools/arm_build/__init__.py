"""The programs for ARM, which a PC makes (`program`), with kit.c in the place of the C that the kit has for PCs alone."""
