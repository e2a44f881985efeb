"""What `dev/edits` does: it reads the edits, has the prover judge them, and keeps the ledger."""
