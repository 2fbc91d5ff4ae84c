"""Walks: proofs of functions over lent slices, which tools/walk.py writes. One file for each part of the work:

texts (pieces of a proof's text), names (what a file brings in), plain (types of plain data), held (the list of what is held), lent (slices, arrays
and fronts of them), call (one call), walk (the walk of a function, step by step), frame (the text around it), steps (what the forms share); the
forms: straight, forks, ring, element (fetch and put), rounds; and files (writing them, or comparing them with what is there).
"""
