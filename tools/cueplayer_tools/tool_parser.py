"""The words of a tool, whose help begins with what it does and with an example, as the program's
does."""

import argparse


class ToolParser(argparse.ArgumentParser):
    """`about` is a sentence in one line, or several lines that are shown as they are."""

    def __init__(self, prog: str, about: str, examples: tuple[str, ...], more: str = "") -> None:
        super().__init__(prog=prog, epilog=more or None)
        self.about, self.examples = about, examples

    def format_help(self) -> str:
        examples = "".join(f"  {each}\n" for each in self.examples)
        return f"{self.about}\n\n{examples}\n{super().format_help()}"
