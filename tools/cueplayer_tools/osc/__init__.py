"""A night by Open Sound Control: `tools/osc`."""
