"""Completions for shells of the words of a program: its jobs, and its options with their values. tools/manual writes them."""
import re
from typing import NamedTuple


class Option(NamedTuple):
    """An option: its spellings, the name of its value or none, what it says, the rules that its value may begin with, and the jobs that take it; none where
    it stands alone."""
    spellings: tuple
    value: str
    text: str
    rules: tuple
    jobs: tuple

    def takes_file(self):
        return self.value in ("F", "FILE")


def short(text):
    """The first part of a text, which says what the word is for."""
    return re.split(r"; | -- ", text)[0]


def jobs_of_title(title, jobs):
    """The jobs that the title of a section of options names."""
    return tuple(job for job in jobs if job in re.split(r" of |, | and ", title))


def words_of(parts, known=None):
    """The jobs, each with what it says, and the options, of the sections of a help text. Options that are known say what is said there, and one of no text
    what the one before it says."""
    jobs, options = {}, []
    for title, entries in parts:
        for term, text, below in entries:
            if title.startswith("Jobs"):
                jobs.setdefault(term.split()[0], short(text))
            elif title.startswith("Option"):
                spellings = tuple(re.findall(r"-{1,2}\w+", term))
                value = term.split()[-1] if term.split()[-1] != spellings[-1] else ""
                rules = tuple(re.sub(r"(:).*", r"\1", rule) for rule, _ in below)
                option = Option(spellings, value, short(text) or options[-1].text, rules, jobs_of_title(title, jobs))
                same = (known or {}).get(spellings, option)
                options.append(option._replace(text=same.text, rules=same.rules))
    return jobs, options


def head(program, shell, how):
    return f"# Made by tools/manual of the words of `{program} --help`: a completion for {shell}. {how}"


def function(program):
    return "_" + program.replace("-", "_")


def bash(program, jobs, options):
    cases = []
    for option in options:
        if option.rules:
            words = f"COMPREPLY=($(compgen -W '{' '.join(option.rules)}' -- \"$word\")); compopt -o nospace; return"
        else:
            words = 'COMPREPLY=($(compgen -f -- "$word")); return' if option.takes_file() else "return"
        if option.value:
            cases.append(f"        {option.spellings[-1]}) {words} ;;")
    return "\n".join([
        head(program, "bash", f"`. docs/{program}.bash` takes it."),
        "# shellcheck shell=bash disable=SC2207",
        f"{function(program)}() {{",
        '    local word=${COMP_WORDS[COMP_CWORD]} before=${COMP_WORDS[COMP_CWORD - 1]}',
        "    case $before in",
        *cases,
        "    esac",
        "    case $word in",
        f"        -*) COMPREPLY=($(compgen -W '{' '.join(it for option in options for it in option.spellings)}' -- \"$word\")) ;;",
        "        *)",
        '            if [ "$COMP_CWORD" -eq 1 ]; then',
        f"                COMPREPLY=($(compgen -W '{' '.join(jobs)}' -- \"$word\"))",
        "            else",
        '                COMPREPLY=($(compgen -f -- "$word"))',
        "            fi",
        "            ;;",
        "    esac",
        "}",
        f"complete -F {function(program)} {program}",
        "",
    ])


def by_jobs(options):
    """The options that stand with jobs, by these jobs."""
    found = {}
    for option in options:
        if option.jobs:
            found.setdefault(option.jobs, []).append(option)
    return found


def zsh_text(text, marks):
    """A text between quotes of zsh, in which some marks have a meaning."""
    return re.sub(rf"([{marks}\\\\])", r"\\\1", text).replace("'", "'\\''")


def zsh_option(option):
    """An option as _arguments of zsh takes it: an option's value stands behind a blank or a `=`."""
    text = zsh_text(option.text, "][:")
    if not option.value:
        return f"'{option.spellings[-1]}[{text}]'"
    if option.rules:
        values = "{compadd -S \"\" - " + " ".join(option.rules).replace(":", "\\:") + "}"
    else:
        values = "_files" if option.takes_file() else " "
    return f"'{option.spellings[-1]}=[{text}]:{option.value}:{values}'"


def zsh(program, jobs, options):
    alone = [f"'(- *)'{{{','.join(option.spellings)}}}'[{zsh_text(option.text, '][:')}]'" for option in options if not option.jobs]
    cases = [[f"    {'|'.join(its)})", "        options+=(", *(f"            {zsh_option(it)}" for it in found), "        )", "        ;|"]
             for its, found in by_jobs(options).items()]
    told = [f"    '{job}:{zsh_text(text, ':')}'" for job, text in jobs.items()]
    return "\n".join([
        f"#compdef {program}",
        head(program, "zsh", f"A folder of fpath has it as {function(program).replace('_tools', '-tools')}."),
        "local curcontext=$curcontext state line",
        "typeset -A opt_args",
        "local -a jobs options",
        "jobs=(", *told, ")",
        "options=(", *(f"    {it}" for it in alone), ")",
        "case ${words[2]} in",
        *(line for case in cases for line in case),
        "esac",
        "_arguments -C : $options '1: :->job' '*: :_files' && return 0",
        "[[ $state = job ]] && _describe -t jobs job jobs",
        "",
    ])


def fish_option(program, option):
    """A line of fish for an option."""
    when = f"__fish_seen_subcommand_from {' '.join(option.jobs)}" if option.jobs else "__fish_use_subcommand"
    spelled = " ".join(f"-l {it[2:]}" if it.startswith("--") else f"-s {it[1:]}" for it in option.spellings)
    if not option.value:
        takes = " -f"
    else:
        takes = " -r -F" if option.takes_file() else f" -x -a '{' '.join(option.rules)}'" if option.rules else " -x"
    return f"complete -c {program} -n '{when}' {spelled}{takes} -d '{fish_text(option.text)}'"


def fish_text(text):
    return text.replace("\\", "\\\\").replace("'", "\\'")


def fish(program, jobs, options):
    return "\n".join([
        head(program, "fish", "A folder vendor_completions.d has it."),
        f"complete -c {program} -n __fish_use_subcommand -f",
        *(f"complete -c {program} -n __fish_use_subcommand -a {job} -d '{fish_text(text)}'" for job, text in jobs.items()),
        *(fish_option(program, option) for option in options),
        "",
    ])


# The writer of each shell's completion, by the ending of its file.
SHELLS = {"bash": bash, "zsh": zsh, "fish": fish}
