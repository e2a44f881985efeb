"""MIDI Show Control, and notes, as commands of a night."""
