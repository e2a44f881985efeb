"""The cue sheet of a show, to be printed: `tools/sheet`."""
