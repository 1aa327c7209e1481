# Completion of altctl for bash.
_altctl() {
    local word=${COMP_WORDS[COMP_CWORD]} before=${COMP_WORDS[COMP_CWORD - 1]} command=${COMP_WORDS[1]-} options=--help
    COMPREPLY=()
    if [ "$COMP_CWORD" -eq 1 ]; then
        mapfile -t COMPREPLY < <(compgen -W 'create run serve do check tree copy --help --version' -- "$word")
        return
    fi
    case $command in
    run | serve | do) options="$_altctl_numbers --strict --read-only --grow --no-lock --wait --help" ;;
    check | tree | copy) options='--no-lock --wait --help' ;;
    esac
    [ "$command" != serve ] || options="--planners $options"
    # Bash takes `--cache=5` for three words.
    [ "$before" != = ] || before=${COMP_WORDS[COMP_CWORD - 2]}
    if [ "$word" = = ]; then
        :
    elif [[ $word = -* ]]; then
        mapfile -t COMPREPLY < <(compgen -W "$options" -- "$word")
    elif _altctl_has_number "$before"; then
        :
    elif [ "$command" = do ] && _altctl_has_file; then
        mapfile -t COMPREPLY < <(compgen -W "$_altctl_lines" -- "${word#[\"\']}")
    else
        compopt -o filenames
        mapfile -t COMPREPLY < <(compgen -f -- "$word")
    fi
}

# The options that a number follows.
_altctl_numbers='--cache --buffer --grow-to'

# The first words of lines, which come after the file of `do`.
_altctl_lines='new drop put remove checkpoint uncheck back merge post commit rollback reclaim grow free blocks
    get list next tally alts checks changes diff conflicts'

# Whether a number follows this word.
_altctl_has_number() {
    [[ " $_altctl_numbers " = *" $1 "* ]]
}

# Whether the file stands before the word that is completed.
_altctl_has_file() {
    local at
    for ((at = 2; at < COMP_CWORD; at++)); do
        if [[ ${COMP_WORDS[at]} != -* ]]; then
            return 0
        elif _altctl_has_number "${COMP_WORDS[at]}"; then
            [ "${COMP_WORDS[at + 1]-}" != = ] || at=$((at + 1))
            at=$((at + 1))
        fi
    done
    return 1
}

complete -F _altctl altctl
