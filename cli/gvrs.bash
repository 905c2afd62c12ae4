# shellcheck shell=bash
# cli/gvrs.bash: completion of the words of `gvrs` in bash: its commands, the options of each, the elements of a page, and files. The
# command itself says what there is.

# Completes the word $1 by those on standard input.
_gvrs_words() {
    mapfile -t COMPREPLY < <(compgen -W "$(cat)" -- "$1")
}

_gvrs() {
    local gvrs=${COMP_WORDS[0]} command=${COMP_WORDS[1]} word=${COMP_WORDS[COMP_CWORD]} usage
    COMPREPLY=()
    if [ "$COMP_CWORD" -eq 1 ]; then
        _gvrs_words "$word" < <("$gvrs" --help 2>/dev/null | sed -n 's/^    gvrs \([a-z-]*\) .*/\1/p'; echo --help --version)
        return
    fi
    usage=$("$gvrs" "$command" --help 2>/dev/null | sed -n '1s/^usage: gvrs [a-z-]* //p')
    if [[ $word == -* ]]; then
        _gvrs_words "$word" < <(grep -o -e '--*[a-z][a-z-]*' <<<"$usage"; echo --help --why)
    elif [ "$(cut -d ' ' -f $((COMP_CWORD - 1)) <<<"$usage")" = ELEMENT ]; then
        _gvrs_words "$word" < <("$gvrs" info "${COMP_WORDS[2]}" --csv 2>/dev/null | sed -n 's/^elements\.[0-9]*\.name,//p')
    else
        mapfile -t COMPREPLY < <(compgen -f -- "$word")
    fi
}
complete -o filenames -F _gvrs gvrs
