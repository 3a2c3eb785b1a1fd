"""Completions for bash from what a program's --help prints: completions(NAME, HELP, HELP_OF) is a script of it."""
import re

OPTION = re.compile(r"^  (?:-\w, |    )(--[\w-]+)( <(\w+)>)?", re.M)
COMMAND = re.compile(r"^  ([a-z][\w-]*)  ", re.M)
SCRIPT = """# completions of {name} for bash
_{name}() {{
    local command= word words=() current=${{COMP_WORDS[COMP_CWORD]}} previous=${{COMP_WORDS[COMP_CWORD - 1]}}
    for word in "${{COMP_WORDS[@]:1:COMP_CWORD-1}}"; do
        case $word in {commands}) command=$word ;; esac
    done
    case $previous in {files}) COMPREPLY=($(compgen -f -- "$current")) && return ;; esac
    case $command in
{cases}
    esac
    [[ -n $command && $current != -* ]] && COMPREPLY=($(compgen -f -- "$current")) && return
    COMPREPLY=($(compgen -W "${{words[*]}}" -- "$current"))
}}
complete -o filenames -F _{name} {name}
"""


def completions(name, text, help_of):
    """`text` is the program's own help, and help_of gives that of a command."""
    commands = COMMAND.findall(text.partition("Commands:")[2].partition("Options:")[0])
    own = [it[0] for it in OPTION.findall(text)]
    helps = {it: OPTION.findall(help_of(it)) for it in commands}
    files = sorted({option for found in [OPTION.findall(text), *helps.values()] for option, _, value in found if value == "FILE"})
    cases = [f"    '') words=({' '.join([*commands, *own])}) ;;"]
    cases += [f"    {it}) words=({' '.join(option for option, _, _ in found)}) ;;" for it, found in helps.items()]
    return SCRIPT.format(name=name, commands="|".join(commands), files="|".join(files) or "--", cases="\n".join(cases))
