"""The programs for ARM: `run` has the tests of the programs try them by qemu, and what is here tries kit.c, which takes the place of the kit's C in them."""
