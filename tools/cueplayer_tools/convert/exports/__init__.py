"""Reading the exports of other consoles, whatever their makers write."""
