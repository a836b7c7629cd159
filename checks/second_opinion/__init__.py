"""A plain second checker of probe files, to compare the proved one with.

It follows docs/JUDGEMENT.md over whole lists: a moment is a number of writes, what a record may see is
found by asking every write, and the source of a load by trying every moment. Permissions follow
docs/PERMISSIONS.md in the same way. It shares no line and no table with the program, and was written
without a look at its definitions.
"""
