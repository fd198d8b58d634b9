"""Generates completions for bash, zsh and fish from a program's help texts (help_texts.py).

The name of an option's value decides how it is completed: CHANNEL=FILE as a file name after the first `=`, CHANNEL=FORMAT as a
format, others not at all. An argument FILE is a description: a *.toml file, or a folder.
"""
from help_texts import Unknown, formats_of, names_of

KINDS = {"CHANNEL=FILE": "file", "CHANNEL=FORMAT": "format", "CHANNEL": "other", "NAME": "other", "N": "other"}


def kind_of(option):
    """How the value of an option is completed; None if it takes none."""
    if option["value"] and option["value"] not in KINDS:
        raise Unknown(f"{option['long']} takes {option['value']}: add to KINDS how to complete it")
    return KINDS.get(option["value"])


def options_of(program, *kinds):
    """The options of all subcommands that take a value of these kinds."""
    found = [name for command in program.commands for it in command.options if kind_of(it) in kinds for name in names_of(it)]
    return list(dict.fromkeys(found))


def takes_file(command):
    """Whether it takes a description as a file."""
    return any(it["name"] == "[FILE]" for it in command.arguments)


def all_names(command):
    return " ".join(name for option in command.options for name in names_of(option))


def filled(template, program, **parts):
    """Puts each part into a template, in place of @ITS_NAME@."""
    for name, text in {**parts, "FORMATS": " ".join(formats_of(program)), "NAME": program.name, "VERSION": program.version}.items():
        template = template.replace(f"@{name}@", text)
    return template


def words_after(program, command):
    """What may follow a subcommand: its options, or after `help` the subcommands."""
    return " ".join(it.name for it in program.commands) if command.name == "help" else all_names(command)


def helpers(program, texts):
    """The functions that the program's kinds of values need."""
    return "".join(text for kind, text in texts.items() if options_of(program, kind))


BASH = r"""# Bash completion for @NAME@ @VERSION@, generated from its help texts by Hoxburen's tools/manual.
# shellcheck shell=bash

_@NAME@() {
    local words=() last=-1 at=0 word='' option='' start='' files=0 options='' takes='' breaks=$COMP_WORDBREAKS
    # Bash also splits unquoted words at =; join them again.
    for ((at = 0; at <= COMP_CWORD; at++)); do
        word=${COMP_WORDS[at]}
        if ((last > 0)) && [[ $breaks == *=* && ($word == =* || ${words[last]} == *=) ]]; then
            words[last]+=$word
        else
            last=$((last + 1))
            words[last]=$word
        fi
    done
    case ${words[1]} in
@CASES@
    *) options='@OPTIONS@' ;;
    esac
    # Find out whether the word is an option's value, and whether a description was given before.
    for ((at = 2; at < last; at++)); do
        case ${words[at]} in
        @TAKING@) at=$((at + 1)) ;;
        *[\<\>]) at=$((at + 1)) ;;
        -?*) ;;
        *) files=$((files + 1)) ;;
        esac
    done
    word=${words[last]}
    if [[ $word == [\"\']* ]]; then breaks='' word=${word:1}; fi
    if ((last == 1)); then
        takes=''
        if [[ $word != -* ]]; then options='@COMMANDS@'; fi
    elif ((at > last)); then
        option=${words[last - 1]}
    elif [[ $word == --*=* ]]; then
        option=${word%%=*} start=${word%%=*}= word=${word#*=}
    elif [[ $word == *[\<\>] ]]; then
        option=$word word=''
    fi
    COMPREPLY=()
    case $option in
@VALUES@
    *[\<\>]) _@NAME@_files "$word" ;;
    '')
        if [[ $word != -* && -n $takes && $files == 0 ]]; then
            _@NAME@_files "$word" '!*.toml'
        else
            mapfile -t COMPREPLY < <(compgen -W "$options" -- "$word")
        fi
        ;;
    esac
    # Readline replaces the part after the last = if bash splits there, otherwise the whole word.
    if [[ $breaks != *=* ]]; then
        COMPREPLY=("${COMPREPLY[@]/#/"$start"}")
    elif [[ $word == *=* ]]; then
        COMPREPLY=("${COMPREPLY[@]#"${word%=*}="}")
    fi
}

# _@NAME@_files START [PATTERN]: folders, and files that don't match the pattern, whose names begin with START.
_@NAME@_files() {
    local part=${1//\\/}
    compopt -o filenames 2> /dev/null
    mapfile -t COMPREPLY < <({ compgen -f -X "${2-}" -- "$part"; compgen -d -- "$part"; } | sort -u)
}

complete -F _@NAME@ @NAME@
"""

# Completes the value of an option in bash.
BASH_VALUE = """    @KINDS@)
        if [[ $word == *=* ]]; then
            start+=${word%%=*}= word=${word#*=}
            @REPLY@
        fi
        ;;"""
BASH_REPLIES = {"file": '_@NAME@_files "$word"', "format": "mapfile -t COMPREPLY < <(compgen -W '@FORMATS@' -- \"$word\")"}


def bash(program):
    """The completion for bash, which can't show descriptions."""
    cases = [f"    {it.name}) options='{words_after(program, it)}' takes={'file' if takes_file(it) else ''} ;;" for it in program.commands]
    kinds = {kind: " | ".join(options_of(program, kind)) for kind in BASH_REPLIES}
    values = [BASH_VALUE.replace("@KINDS@", kinds[it]).replace("@REPLY@", BASH_REPLIES[it]) for it in kinds if kinds[it]]
    parts = {
        "VALUES": "\n".join(values),
        "CASES": "\n".join(cases),
        "OPTIONS": all_names(program),
        "COMMANDS": " ".join(it.name for it in program.commands),
        "TAKING": " | ".join(options_of(program, *KINDS.values())),
    }
    template = BASH if values else BASH.replace("@VALUES@\n", "")
    return filled(template, program, **parts)


ZSH = r"""#compdef @NAME@
# Zsh completion for @NAME@ @VERSION@, generated from its help texts by Hoxburen's tools/manual.

_@NAME@() {
    local curcontext=$curcontext state line
    typeset -A opt_args
    _arguments -C \
@OPTIONS@
        '1:command:_@NAME@_commands' \
        '*::argument:->arguments' && return
    [[ $state == arguments ]] || return 1
    case $words[1] in
@CASES@
    *) return 1 ;;
    esac
}

_@NAME@_commands() {
    local -a commands=(
@COMMANDS@
    )
    _describe command commands
}
@HELPERS@
_@NAME@ "$@"
"""
ZSH_HELPERS = {
    "file": r"""
# The part after = of CHANNEL=FILE.
_@NAME@_file() {
    compset -P 1 '*=' && _files
}
""",
    "format": r"""
# The part after = of CHANNEL=FORMAT.
_@NAME@_format() {
    local -a formats=(@FORMATS@)
    compset -P 1 '*=' && compadd -a formats
}
""",
}


def quoted(text):
    """A text in single quotes, for zsh."""
    return "'" + text.replace("'", r"'\''") + "'"


def zsh_option(option):
    """The specifications of an option for _arguments."""
    text = option["help"].replace("[", r"\[").replace("]", r"\]")
    value = {"file": f":{option['value']}:_@NAME@_file", "format": f":{option['value']}:_@NAME@_format", "other": f":{option['value']}: "}
    if not kind_of(option):
        before = "(- *)" if option["long"] in ("--help", "--version") else ""
        return [quoted(f"{before}{name}[{text}]") for name in names_of(option)]
    repeats = "*" if option["value"].startswith("CHANNEL") else ""
    return [quoted(f"{repeats}{name}{'=' if name.startswith('--') else '+'}[{text}]{value[kind_of(option)]}") for name in names_of(option)]


def zsh_case(command):
    """The branch for a subcommand."""
    if command.name == "help":
        return "    help) _@NAME@_commands ;;"
    rows = [row for it in command.options for row in zsh_option(it)]
    rows += ["'1:FILE:_files -g \"*.toml(-.)\"'"] if takes_file(command) else []
    return f"    {command.name})\n        _arguments \\\n" + " \\\n".join(f"            {it}" for it in rows) + "\n        ;;"


def zsh(program):
    parts = {
        "OPTIONS": "\n".join(f"        {row} \\" for it in program.options for row in zsh_option(it)),
        "CASES": "\n".join(map(zsh_case, program.commands)),
        "COMMANDS": "\n".join("        " + quoted(f"{it.name}:{it.about}") for it in program.commands),
        "HELPERS": helpers(program, ZSH_HELPERS),
    }
    return filled(ZSH, program, **parts)


FISH = r"""# Fish completion for @NAME@ @VERSION@, generated from its help texts by Hoxburen's tools/manual.
@HELPERS@
complete -c @NAME@ -f
@LINES@
"""
FISH_HELPERS = {
    "file": r"""
# CHANNEL=FILE: a file name after =. The word may begin with its option, as in --out=CHANNEL=FILE.
function __@NAME@_file
    set -l parts (string split -m 1 = -- (string replace -r -- '^--\w+=' '' (commandline -ct)))
    test (count $parts) = 2; or return
    for path in (__fish_complete_path $parts[2])
        echo $parts[1]=$path
    end
end
""",
    "format": r"""
# CHANNEL=FORMAT: a format after =.
function __@NAME@_format
    set -l parts (string split -m 1 = -- (string replace -r -- '^--\w+=' '' (commandline -ct)))
    test (count $parts) = 2; or return
    for format in @FORMATS@
        echo $parts[1]=$format
    end
end
""",
}
FISH_DESCRIPTION = r"""
# A description, or a folder.
function __@NAME@_description
    __fish_complete_path (commandline -ct) | string match -r '^[^\t]*(?:\.toml|/)(?:\t.*)?$'
end
"""
FISH_VALUES = {None: "", "file": " -x -a '(__@NAME@_file)'", "format": " -x -a '(__@NAME@_format)'", "other": " -x"}


def fish_quoted(text):
    """A text in single quotes, for fish."""
    return "'" + text.replace("\\", r"\\").replace("'", r"\'") + "'"


def fish_option(option, when):
    short = f" -s {option['short'].lstrip('-')}" if option["short"] else ""
    value = FISH_VALUES[kind_of(option)]
    return f"complete -c @NAME@ -n {when}{short} -l {option['long'].lstrip('-')}{value} -d {fish_quoted(option['help'])}"


def fish(program):
    first = "__fish_use_subcommand"
    lines = [fish_option(it, first) for it in program.options]
    for command in program.commands:
        when = f"'__fish_seen_subcommand_from {command.name}'"
        lines += ["", f"complete -c @NAME@ -n {first} -a {command.name} -d {fish_quoted(command.about)}"]
        lines += [fish_option(it, when) for it in command.options]
        lines += [f"complete -c @NAME@ -n {when} -a '{words_after(program, command)}'"] if command.name == "help" else []
        lines += [f"complete -c @NAME@ -n {when} -a '(__@NAME@_description)'"] if takes_file(command) else []
    more = FISH_DESCRIPTION if any(map(takes_file, program.commands)) else ""
    return filled(FISH, program, HELPERS=helpers(program, FISH_HELPERS) + more, LINES="\n".join(lines))
