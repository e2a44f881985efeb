"""Exports of other consoles become shows: `tools/convert`."""
