"""The files that `make install` puts in a folder that stands for the system, and on a system that has something already, and those that `make dist` packs; in a `site`."""
