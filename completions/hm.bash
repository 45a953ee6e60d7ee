# Words of hm for bash, read by `. completions/hm.bash`: its two commands, their options, and the names of files.

# The options of a command that are not given yet and begin as the word does.
_hm_options() {
    local command=$1 word=$2 given=" ${*:3} " option options=(--versions)
    [ "$command" = replay ] && options+=(--max-quantity --low --high)
    for option in "${options[@]}"; do
        [[ $given != *" $option"[\ =]* && $option = "$word"* ]] && COMPREPLY+=("$option")
    done
}

_hm() {
    local word=${COMP_WORDS[COMP_CWORD]} command=${COMP_WORDS[1]}
    COMPREPLY=()
    if [ "$COMP_CWORD" -le 1 ]; then
        mapfile -t COMPREPLY < <(compgen -W "replay generate" -- "$word")
        return
    fi
    [[ $command = replay || $command = generate ]] || return
    local before=("${COMP_WORDS[@]:2:COMP_CWORD-2}") behind=("${COMP_WORDS[@]:COMP_CWORD+1}")
    if [[ " ${before[*]} " != *" -- "* ]]; then
        # An = is a word of its own here, and the number of an option may stand behind it.
        local last=" ${before[*]}"
        [[ ${last% =} = *" --"@(versions|max-quantity|low|high) ]] && return
        if [[ $word = -* || $command = generate ]]; then
            _hm_options "$command" "$word" "${before[@]}" "${behind[@]}"
            return
        fi
    fi
    [ "$command" = generate ] || compopt -o default
}

complete -F _hm hm hm_tool
