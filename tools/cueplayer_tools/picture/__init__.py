"""Pictures of nights and rehearsals: `tools/picture`."""
