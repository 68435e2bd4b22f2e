"""The common part of the gate and .ci/run: parts of a test that say how many cases passed, failed and were skipped.

counts        the line in which a part counts its cases, and what a part is worth that says none or ends badly
in_turn       runs commands one after the other, and keeps what they say in a log
proofs        the part of the gate that proves
"""
