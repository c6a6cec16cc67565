"""Write a release's files that derive from the parser of a program's command line.

usage: parsers.py bash|man MODULE
`bash` is a completion for bash, `man` the section of a man page that lists the options of each verb, in the form that
help2man includes. MODULE has a function `parser`.
"""

from __future__ import annotations

import argparse
import importlib
import shlex
import sys
from collections.abc import Iterator

BASH = """\
# Completes the verbs, options and choices of {program}, and file names elsewhere.
_{function}() {{
    local word=${{COMP_WORDS[COMP_CWORD]}} before=${{COMP_WORDS[COMP_CWORD - 1]}} at
    local verb='' options='' valued='' words=''
    COMPREPLY=()
    [[ $word == '=' ]] && word=''
    [[ $before == '=' ]] && before=${{COMP_WORDS[COMP_CWORD - 2]}}
    for ((at = 1; at < COMP_CWORD; at++)); do
        case ${{COMP_WORDS[at]}} in
            --)
                [[ $before == -- ]] && mapfile -t COMPREPLY < <(compgen -c -- "$word")
                return ;;
{skipping}{verbs}        esac
    done
    case $verb in
{options}    esac
    [[ " $valued " == *" $before "* ]] && words='' options=''
    case "$verb $before" in
{choices}    esac
    [[ $word == -* ]] && words=$options
    [[ $words ]] && mapfile -t COMPREPLY < <(compgen -W "$words" -- "$word")
}}
complete -o default -F _{function} {program}
"""


def verbs_of(parser: argparse.ArgumentParser) -> dict[str, argparse.ArgumentParser]:
    """Return the parser of each verb."""
    for action in parser._actions:
        if isinstance(action, argparse._SubParsersAction):
            return dict(action.choices)
    return {}


def options_of(parser: argparse.ArgumentParser) -> Iterator[argparse.Action]:
    """Yield the options of a parser, and those of its verbs' verbs."""
    for one in (parser, *(verbs_of(parser).values() if " " in parser.prog else ())):
        yield from (action for action in one._actions if action.option_strings)


def valued_of(parser: argparse.ArgumentParser) -> list[str]:
    """Return the options that take a value, which is a file name unless they have choices."""
    return [word for action in options_of(parser) if action.nargs != 0 for word in action.option_strings]


def alternatives(words: list[str], prefix: str = "") -> str:
    """Return a pattern of a bash `case`."""
    return " | ".join(shlex.quote(prefix + word) for word in words)


def bash(parser: argparse.ArgumentParser) -> str:
    """Return the completion of a program for bash."""
    verbs = verbs_of(parser)
    parsers = {"": parser, **verbs}
    valued = valued_of(parser)
    skipping = f"            {alternatives(valued)}) ((at++)) ;;\n" if valued else ""
    chosen = f"            {alternatives(list(verbs))}) verb=${{verb:-${{COMP_WORDS[at]}}}} ;;\n" if verbs else ""
    return BASH.format(
        program=parser.prog,
        function=parser.prog.replace("-", "_"),
        skipping=skipping,
        verbs=chosen,
        options="".join(f"        {case}\n" for verb, one in parsers.items() for case in words_case(verb, one)),
        choices="".join(f"        {case}\n" for verb, one in parsers.items() for case in choice_cases(verb, one)),
    )


def words_case(verb: str, parser: argparse.ArgumentParser) -> Iterator[str]:
    """Write the options of a verb, and the choices of its words."""
    options = [*dict.fromkeys(word for action in options_of(parser) for word in action.option_strings)]
    words = [word for action in parser._actions if not action.option_strings for word in action.choices or ()]
    pairs = [("options", options), ("valued", valued_of(parser)), ("words", words)]
    yield f"{shlex.quote(verb)}) {' '.join(f'{name}={shlex.quote(chr(32).join(found))}' for name, found in pairs)} ;;"


def choice_cases(verb: str, parser: argparse.ArgumentParser) -> Iterator[str]:
    """Write the choices of each option, if any."""
    for action in options_of(parser):
        if action.choices is not None:
            choices = shlex.quote(" ".join(map(str, action.choices)))
            yield f"{alternatives(list(action.option_strings), f'{verb} ')}) words={choices} ;;"


def escaped(text: str) -> str:
    """Return a text as roff takes it."""
    lines = text.replace("\\", "\\\\").replace("-", "\\-").splitlines()
    return "\n".join(f"\\&{line}" if line.startswith((".", "'")) else line for line in lines)


def manual(parser: argparse.ArgumentParser) -> str:
    """Return the section on the verbs of a program; empty if it has none."""
    sections: list[str] = []
    for verb, one in verbs_of(parser).items():
        sections += section(verb, one)
        for name, further in verbs_of(one).items():
            sections += section(f"{verb} {name}", further)
    return "\n".join(["[COMMANDS]", *sections, ""]) if sections else ""


def section(verb: str, parser: argparse.ArgumentParser) -> Iterator[str]:
    usage = " ".join(parser.format_usage().removeprefix("usage: ").split())
    yield from (f".SS {escaped(verb)}", escaped(usage), ".PP", escaped(parser.description or ""))
    formatter = parser.formatter_class(parser.prog)
    for action in parser._actions:
        if action.help is argparse.SUPPRESS:
            continue
        shown = formatter._format_action_invocation(action)
        yield from (".TP", f"\\fB{escaped(shown)}\\fR", escaped(formatter._expand_help(action) if action.help else ""))
    if parser.epilog:
        yield from (".PP", ".nf", escaped(parser.epilog), ".fi")


def main() -> int:
    _, form, module = sys.argv
    parser = importlib.import_module(module).parser()
    print({"bash": bash, "man": manual}[form](parser), end="")
    return 0


if __name__ == "__main__":
    sys.exit(main())
