# Completion of dxl for bash: commands, options and their values, names of registers, and files. All but the files is read from the
# help of the tool itself, so that nothing here has to follow when a command or an option is added.

# The lines of usage in a help, one for each, without the text behind them.
_dxl_usage() { # HELP
    awk '/^$/ { exit }
         { sub(/^usage:/, ""); sub(/^ +/, ""); sub(/  .*/, "") }
         /^dxl / { if (line != "") print line; line = $0; next }
         { line = line " " $0 }
         END { print line }' <<<"$1"
}

_dxl_takes_value() { # USAGE OPTION
    [[ $2 == --* && $1 == *"[$2 "* ]]
}

# Whether a word may stand where the usage has a token: small letters stand for themselves, those with | between for each.
_dxl_fits() { # TOKEN WORD
    [[ $1 != *[a-z]* || "|$1|" == *"|$2|"* ]]
}

# What follows these words by one line of usage, if they fit it. With ... behind it, all from ID on is there many times, or the last.
_dxl_next() { # LINE WORD...
    local -a tokens
    local at=0 i first
    read -r -a tokens < <(sed 's/\[--[^]]*\]//g; s/ > .*//; s/^dxl//; s/[][]//g' <<<"$1")
    shift
    for word; do
        [[ $at -lt ${#tokens[@]} ]] && _dxl_fits "${tokens[at]%...}" "$word" || return
        first=$at
        for i in "${!tokens[@]}"; do
            [[ ${tokens[i]} != ID ]] || { first=$i && break; }
        done
        [[ ${tokens[at]} == ?*... ]] && at=$first || ((at += 1))
    done
    echo "${tokens[at]%...}"
}

# The words that may stand for a token; @ for a file.
_dxl_words() { # HELP TOKEN
    case $2 in
    '' | N | ID | VALUE | COUNT | COMMAND | -*) ;;
    REGISTER) sed -n '/^REGISTER /,/^VALUE /s/^  //p' <<<"$1" ;;
    *[a-z]*) tr '|' ' ' <<<"$2" ;;
    *) echo @ ;;
    esac
}

_dxl() {
    local dxl=${COMP_WORDS[0]/#\~/$HOME} word=${COMP_WORDS[COMP_CWORD]} before=${COMP_WORDS[COMP_CWORD - 1]} help usage line offered= i
    local -a words=()
    COMPREPLY=()
    help=$("$dxl" --help 2>/dev/null) || return
    # The words before this one that are no options and no values of options; --name=value comes as three.
    for ((i = 1; i < COMP_CWORD; i++)); do
        usage=$(_dxl_usage "$help")
        [[ ${COMP_WORDS[i]} != --* ]] || continue
        [[ ${COMP_WORDS[i - 1]} != = ]] && ! _dxl_takes_value "$usage" "${COMP_WORDS[i - 1]}" || continue
        words+=("${COMP_WORDS[i]}")
        [[ ${#words[@]} -gt 2 ]] || help=$("$dxl" "${words[@]}" --help 2>/dev/null) || return
    done
    usage=$(_dxl_usage "$help")
    [[ $before != = ]] || before=${COMP_WORDS[COMP_CWORD - 2]}
    [[ $word != = ]] || word=
    if _dxl_takes_value "$usage" "$before"; then
        offered=$(sed -n "s/.*\\[$before \\([^]]*|[^]]*\\)\\].*/\\1/p" <<<"$usage" | tr '|' ' ')
    elif [[ $word == -* ]]; then
        offered="$(grep -o -e '--[a-z][a-z-]*' <<<"$usage") --help"
    else
        offered=$(while read -r line; do _dxl_words "$help" "$(_dxl_next "$line" "${words[@]}")"; done <<<"$usage")
    fi
    if [[ $offered == @* ]]; then
        compopt -o filenames 2>/dev/null
        mapfile -t COMPREPLY < <(compgen -f -- "$word")
    else
        mapfile -t COMPREPLY < <(compgen -W "$offered" -- "$word" | sort -u)
    fi
}

complete -F _dxl dxl
