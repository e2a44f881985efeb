"""Each file that has something generated, as it has to be."""

from pathlib import Path

from generators import examples_page, specified_bodies, synopsis
from generators.command_line import jobs
from generators.marks import TOP, with_block


def blocks() -> dict[str, dict[str, str]]:
    """The blocks of each file, by their names."""
    manual = {"the synopsis": synopsis.manual_synopsis()}
    for job in jobs():
        if job.options():
            manual[f"the options of {job.name}"] = synopsis.manual_options(job)
    return {
        "README.md": {"the synopsis": synopsis.readme()},
        "docs/DESIGN.md": {"the wrong bodies": specified_bodies.table()},
        "docs/FORMATS.md": {"the synopsis": synopsis.formats()},
        "man/cueplayer.1": manual,
        "completion/cueplayer.bash": {"the jobs and options": synopsis.completion()},
        "completion/cueplayer-night.bash": {"the options of a night": synopsis.night_completion()},
    }


def pages() -> dict[Path, str]:
    """The text of each such file."""
    found: dict[Path, str] = {}
    for name, parts in blocks().items():
        text = (TOP / name).read_text()
        for block, content in parts.items():
            text = with_block(name, block, content, text)
        found[TOP / name] = text
    found[TOP / "docs/EXAMPLES.md"] = examples_page.page()
    return found
