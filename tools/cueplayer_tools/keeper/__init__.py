"""What `cueplayer-night` does: keeps a `live` going in a folder, and hands commands to it.

It runs no tool of the system but `./cueplayer`, reads no locale, and asks no shell. A module that
a command does not need is not imported for it: a press comes to the stage sooner.
"""
