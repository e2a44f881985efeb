"""What the program must answer, worked out anew from docs/PROFILE.md and docs/FORMATS.md.

Nothing here was taken from the program's code or from what it prints. `runs` has the answers of
whole runs; `show`, `desk`, `stream`, `receiver` and `script` have the parts, `words` the
spellings.
"""
