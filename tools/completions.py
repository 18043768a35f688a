"""Completion of the command lines of gdc and of the tools beside it, for bash and for zsh, made of their help texts; it is no command."""
import shlex

# Both shells take these functions, which print what may stand next, a line each.
NEXT = r"""
# _gdc_keys COMMAND GIVEN: the keys of each form of the command that has all that are given, without these.
_gdc_keys() {
    local form key
    _gdc_forms "$1" | while read -r form; do
        for key in $2; do
            case " $form " in (*" $key "*) ;; (*) continue 2 ;; esac
        done
        for key in $form; do
            case " $2 " in (*" $key "*) ;; (*) printf '%s\n' "$key" ;; esac
        done
    done | sort -u
}

# _gdc_next TOOL BEGUN WORD..: what may stand behind the words, where a word is begun. FILE is the name of a file.
_gdc_next() {
    local tool=$1 begun=$2 command='' keys='' given='' last='' word
    shift 2
    for word; do
        last=$word
        if [ -z "$command" ]; then
            case " $(echo $(_gdc_commands "$tool")) " in
                (*" $word "*) command=$word keys=" $(echo $(_gdc_forms "$word")) " ;;
            esac
        else
            case $keys in (*" $word "*) given="$given $word" ;; esac
        fi
    done
    if [ -n "$command" ]; then
        case $keys in
            (*" $last "*) _gdc_values "gdc $last" ;;
            (*) _gdc_keys "$command" "$given" ;;
        esac
    elif [ "$tool" = gdc ] && [ "$#" -gt 0 ]; then
        :
    elif [ -n "$(_gdc_values "$tool $last")" ]; then
        _gdc_values "$tool $last"
    else
        case $begun in
            (-*) _gdc_options "$tool" ;;
            (*) word=$(_gdc_commands "$tool") && printf '%s\n' "${word:-FILE}" ;;
        esac
    fi
}
"""

BASH = r"""
_gdc() {
    local begun=${COMP_WORDS[COMP_CWORD]} found
    found=$(_gdc_next "${COMP_WORDS[0]##*/}" "$begun" "${COMP_WORDS[@]:1:COMP_CWORD-1}")
    COMPREPLY=()
    # (where nothing is found, readline completes names of files if it is told so)
    if [ "$found" = FILE ]; then
        compopt -o default 2>/dev/null
    else
        mapfile -t COMPREPLY < <(compgen -W "$found" -- "$begun")
    fi
}
complete -F _gdc TOOLS
"""

ZSH = r"""
_gdc() {
    local -a found
    set -- "${words[1]:t}" "${words[CURRENT]}" "${(@)words[2,CURRENT-1]}"
    found=(${(f)"$(emulate sh; _gdc_next "$@")"})
    if [[ $found == FILE ]]; then _files; else compadd -- $found; fi
}
_gdc "$@"
"""


def function(name, remark, rows):
    """A function of the shell that prints the words of its first argument, a line each."""
    same = {}
    for of, words in rows.items():
        if words:
            same.setdefault(shlex.join(words), []).append(shlex.quote(of))
    cases = [f"        ({'|'.join(patterns)}) printf '%s\\n' {words} ;;" for words, patterns in same.items()]
    return "\n".join([f"# {remark}", f"{name}() {{", "    case $1 in", *cases, "    esac", "}", ""])


def words_of_value(value):
    """The words that an option of a tool may be followed by."""
    return [] if value is None else value[1:-1].split(",") if value.startswith("{") else ["FILE"]


def tables(text, tools):
    """The functions that say what the help texts do."""
    names = list(text.commands)
    commands, options = [name for name in names if name[0] != "-"], [name for name in names if name[0] == "-"]
    runs = {tool.name: commands if tool.runs == "COMMAND" else [tool.runs] if tool.runs else [] for tool in tools}
    forms = {name: [" ".join(key.name for key in form) for form in text.commands[name].forms] for name in commands}
    values = {f"gdc {key.name}": key.values() or ["FILE"] * (key.value == "FILE") for key in text.keys().values()}
    values.update((f"{tool.name} {name}", words_of_value(value)) for tool in tools for name, value in tool.options.items())
    return "".join([
        function("_gdc_commands", "The commands of gdc that stand behind gdc or a tool.", {"gdc": commands, **runs}),
        function("_gdc_forms", "The keys of each form of a command.", forms),
        function("_gdc_options", "The options of gdc or of a tool.", {"gdc": options, **{tool.name: list(tool.options) for tool in tools}}),
        function("_gdc_values", "The values of a key of gdc, or of an option of a tool.", values),
    ])


def completions(text, tools):
    """The files for bash and for zsh. Theirs is the help text as a table, and those of the tools."""
    names = " ".join(["gdc", *(tool.name for tool in tools)])
    made = "# Completion of gdc and of the tools beside it, as their help texts have them. tools/install of gdc made this file."
    shared = f"{made}\n{tables(text, tools)}{NEXT}"
    return shared + BASH.replace("TOOLS", names), f"#compdef {names}\n{shared}{ZSH}"
