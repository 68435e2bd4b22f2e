"""Saves to every kind of place, a file for each kind."""
