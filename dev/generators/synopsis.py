"""The synopsis of the program, in each page and script that shows it."""

import re
import textwrap

from generators.command_line import Argument, Job, Kind, jobs

# The column in which README says what a job does, and how many its code, the manual and a script
# have.
DOES_AT, README_COLUMNS, MANUAL_COLUMNS, SCRIPT_COLUMNS = 42, 100, 80, 96
# What stands beside the jobs; the script answers --version.
BESIDE = {
    "--help": "",
    "--version": "the version, the commit, the toolchain, and whether the sources are the"
    " program's",
}
# The options of `live` that the folder of a night gives.
OF_THE_FOLDER = {"--record", "--resume", "--spare", "--follow", "--patience"}


def readme() -> str:
    """The block of README's *Install and use*."""
    lines = ["```"]
    for job in jobs():
        lines += use(without_many_options(job.synopsis()), job.does())
    for option, does in BESIDE.items():
        lines += use([f"cueplayer {option}"], does)
    return "".join(f"{line}\n" for line in [*lines, "```"])


def without_many_options(parts: list[str]) -> list[str]:
    """The parts of a synopsis, with one word for its options where it may have several."""
    needed = [part for part in parts if not part.startswith("[")]
    return parts if len(parts) - len(needed) < 2 else [*needed, "[OPTION..]"]


def use(parts: list[str], does: str) -> list[str]:
    """The lines of a synopsis, a part never parted, with what it does in a column or below."""
    lines = [f"./{parts[0]}"]
    for part in parts[1:]:
        if len(lines[-1]) + 1 + len(part) > README_COLUMNS:
            lines.append(" " * 7)
        lines[-1] += f" {part}"
    if does and (len(lines) > 1 or len(lines[0]) >= DOES_AT):
        return [*lines, " " * DOES_AT + does]
    return [*lines[:-1], f"{lines[-1]:{DOES_AT}}{does}".rstrip()]


def formats() -> str:
    """The block of FORMATS' *The command line*: each line with all its options."""
    lines = [line for job in jobs() for line in use(job.synopsis(), "")]
    return "".join(f"{line}\n" for line in ["```", *lines, "```"])


def roff(text: str) -> str:
    """A text with the hyphens that a manual page copies as they are."""
    return text.replace("\\", "\\e").replace("-", "\\-")


def bold(text: str) -> str:
    return f"\\fB{roff(text)}\\fR"


def italic(text: str) -> str:
    return f"\\fI{roff(text)}\\fR"


def manual_argument(argument: Argument) -> str:
    """An argument with the fonts of a manual's synopsis."""
    several = ".." if argument.kind in (Kind.SEVERAL, Kind.REPEATED) else ""
    named = [bold(argument.option)] if argument.option else []
    valued = [italic(argument.value) + several] if argument.value else []
    words = " ".join(named + valued)
    return f"[{words}]" if argument.kind in (Kind.OPTIONAL, Kind.FLAG) else words


def manual_synopsis() -> str:
    """The lines of the manual's SYNOPSIS."""
    lines = []
    for job in jobs():
        arguments = map(manual_argument, job.arguments)
        lines.append(" ".join([bold(f"cueplayer {job.name}"), *arguments]))
    lines.append(f"{bold('cueplayer --help')} | {bold('--version')}")
    return ".nf\n" + "".join(f"{line}\n" for line in lines) + ".fi\n"


def manual_text(text: str) -> str:
    """A sentence of the help as the lines of a manual page, the names of options in bold."""
    lines = []
    for sentence in re.split(r"(?<=\.) ", f"{text}."):
        for line in fill(sentence, MANUAL_COLUMNS):
            marked = re.sub(r"--[a-z-]+|-(?= )", lambda found: bold(found[0]), line)
            lines.append(re.sub(r"^([.'])", r"\\&\1", marked))
    return "".join(f"{line}\n" for line in lines)


def manual_options(job: Job) -> str:
    """The options of a job, a paragraph each."""
    paragraphs = []
    for option in job.options():
        value = f' " {option.value}"' if option.value else ""
        font = ".BI" if value else ".B"
        paragraphs.append(f".TP\n{font} {roff(option.option)}{value}\n{manual_text(option.text)}")
    return "".join(paragraphs)


def case(name: str, comment: str, rows: dict[str, list[str]]) -> str:
    """A function of bash that prints the words of the row that its argument names."""
    patterns: dict[str, list[str]] = {}
    for key, words in rows.items():
        if words:
            patterns.setdefault(" ".join(words), []).append(key)
    lines = [f"# {comment}", f"{name}() {{", "    case $1 in"]
    for row, keys in patterns.items():
        first, *more = fill(f"{' | '.join(keys)}) echo {row} ;;", SCRIPT_COLUMNS - 10)
        lines.append(" " * 8 + first)
        if more:
            lines[-1] += " \\"
            lines += [f"{' ' * 12}{line} \\" for line in more[:-1]] + [" " * 12 + more[-1]]
    return "".join(f"{line}\n" for line in [*lines, "    esac", "}"])


def fill(words: str, columns: int) -> list[str]:
    """The words as lines of at most so many columns."""
    return textwrap.wrap(words, columns, break_on_hyphens=False, break_long_words=False)


def words_of(variable: str, words: list[str]) -> str:
    """A variable of bash that has these words."""
    first, *more = fill(" ".join(words), SCRIPT_COLUMNS - len(variable) - 5)
    return "".join(
        [f'{variable}="{first}"\n', *(f'{variable}+=" {line}"\n' for line in more)]
    )


def completion() -> str:
    """What the completion for bash knows of the program."""
    options = {option.option: option for job in jobs() for option in job.options()}
    parts = [
        words_of("_cueplayer_jobs", [job.name for job in jobs()]),
        case(
            "_cueplayer_options",
            "The options of a job.",
            {job.name: [each.option for each in job.options()] for job in jobs()},
        ),
        case(
            "_cueplayer_words",
            "The words of a job that are no options, in their order.",
            {job.name: [each.value for each in job.words()] for job in jobs()},
        ),
        case(
            "_cueplayer_value",
            "The word behind an option; none behind a flag.",
            {name: [option.value] for name, option in options.items() if option.value},
        ),
    ]
    return "\n".join(parts)


def night_completion() -> str:
    """The options of `live` that a night takes."""
    (live,) = (job for job in jobs() if job.name == "live")
    options = [option for option in live.options() if option.option not in OF_THE_FOLDER]
    flags = [option.option for option in options if option.kind is Kind.FLAG]
    names = [option.option for option in options]
    named = words_of("_cueplayer_night_options", names)
    return named + words_of("_cueplayer_night_flags", flags)
