"""`live` for people: lines that can be edited and called back, and answers in their words."""
