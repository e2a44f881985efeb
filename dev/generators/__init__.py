"""What `dev/pages` writes: the parts of pages that follow from another source of the tree."""
