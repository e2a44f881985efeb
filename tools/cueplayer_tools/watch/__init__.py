"""Who sends what, by the proved receiver: `tools/watch`."""
