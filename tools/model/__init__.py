"""Document 01 as a model in Python: every rule, on any content of the areas, and every point that docs/DECISIONS.md settles.

It was written from these documents alone, so that it can stand beside the proved code as a second reading. An answer is a value,
None for nothing, or the exception `Refused`. Numbers are Python's own, so a sum past 2^64 - 1 is tested where the documents
speak of it. Areas are lists, changed in place.
"""
