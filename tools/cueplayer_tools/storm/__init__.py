"""What a night shows behind a network that loses, repeats and reorders: `tools/storm`."""
