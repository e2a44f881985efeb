"""Conformance to E1.31: of any receiver and any source, held against the rules of the standard."""
