"""A desk in a browser: `tools/desk`."""
