"""Certificates: all that are written are accepted by both checkers, and none that says what isn't so.

checking  the two checkers, as commands over files
"""
