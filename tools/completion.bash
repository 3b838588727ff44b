# Completion of taverna and of the tools beside it, for bash:
#
#     . tools/completion.bash
#
# tools/install puts it where bash finds it by itself.

_taverna_files() {
    local path
    while IFS= read -r path; do
        COMPREPLY+=("$path")
    done < <(compgen -f -X '!*.json' -- "$1" && compgen -d -S / -- "$1")
    compopt -o filenames -o nospace 2>/dev/null
    [ "${#COMPREPLY[@]}" -ne 1 ] || [ -d "${COMPREPLY[0]}" ] || compopt +o nospace 2>/dev/null
}

_taverna_words() {
    local word
    while IFS= read -r word; do
        COMPREPLY+=("$word")
    done < <(compgen -W "$1" -- "$2")
}

_taverna() {
    local word=${COMP_WORDS[COMP_CWORD]} before=${COMP_WORDS[COMP_CWORD-1]} command=${COMP_WORDS[1]} said=" ${COMP_WORDS[*]} "
    COMPREPLY=()
    if [ "$COMP_CWORD" -eq 1 ]; then
        _taverna_words "run check trace lineage forward upgrade gen" "$word"
        return
    fi
    case $before in
        --workers) _taverna_words "1 2 4 8 16 32 64" "$word" && return ;;
        --of) return ;;
        '<') _taverna_files "$word" && return ;;
    esac
    case $command:$word in
        run:-* | gen:-*) [[ $said == *" --workers "* ]] || _taverna_words "--workers" "$word" ;;
        lineage:-* | forward:-*) [[ $said == *" --of "* ]] || _taverna_words "--of" "$word" ;;
        lineage:* | forward:*)
            if [[ $said == *" --of "* ]]; then _taverna_files "$word"; else _taverna_words "--of" "$word"; fi
            ;;
        run:* | check:* | trace:* | upgrade:*) _taverna_files "$word" ;;
    esac
}

# The commands of tools/table, the options that a tool's --help names, and documents.
_taverna_tool() {
    local word=${COMP_WORDS[COMP_CWORD]} tool=("${COMP_WORDS[0]}")
    COMPREPLY=()
    if [[ ${tool[0]} == *table ]]; then
        if [ "$COMP_CWORD" -eq 1 ] && [[ $word != -* ]]; then
            _taverna_words "fill run show" "$word"
            return
        fi
        [ "$COMP_CWORD" -eq 1 ] || tool+=("${COMP_WORDS[1]}")
    fi
    case $word in
        -*) _taverna_words "$("${tool[@]}" --help 2>&1 </dev/null | grep -oE -- '(^|[[ (|])--?[A-Za-z][a-z-]*' | tr -d '[ (|' | sort -u)" "$word" ;;
        *) _taverna_files "$word" ;;
    esac
}

complete -F _taverna taverna
complete -o default -F _taverna_tool tools/draw tools/lint tools/report tools/table ./tools/draw ./tools/lint ./tools/report ./tools/table
