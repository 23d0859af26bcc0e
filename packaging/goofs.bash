# Completion of goofs for bash: the commands and options that its help texts name, and the names of the files on the card.
_goofs() {
    local goofs=$1 word=${COMP_WORDS[COMP_CWORD]} command=${COMP_WORDS[1]} names name
    COMPREPLY=()
    if [ "$COMP_CWORD" -eq 1 ]; then
        names=$("$goofs" --help 2> /dev/null | sed -n 's/^  goofs \([a-z]*\) \(LOG \)\{0,1\}CARD.*/\1/p')
        mapfile -t COMPREPLY < <(compgen -W "$names help --help --version" -- "$word")
        return
    fi
    if [[ $command == help && $COMP_CWORD -eq 2 ]]; then
        names=$("$goofs" --help 2> /dev/null | sed -n 's/^  goofs \([a-z]*\) \(LOG \)\{0,1\}CARD.*/\1/p')
        mapfile -t COMPREPLY < <(compgen -W "$names" -- "$word")
        return
    fi
    if [[ $word == -* ]]; then
        # Those in the usage, before the first empty line, and those with a line of their own; and what every command takes.
        names=$("$goofs" "$command" --help 2> /dev/null | sed -n '1,/^$/p; /^  -/p' | grep -o -e '-\(-[a-z][a-z-]*\|p\)\>' | sort -u)
        mapfile -t COMPREPLY < <(compgen -W "$names --help" -- "$word")
        return
    fi
    case $command in
    get | rm | mv | resize | write)
        [ "$COMP_CWORD" -ge 3 ] && [[ ${COMP_WORDS[COMP_CWORD - 1]} != --* ]] || return
        # The offset and FILE of a write, and the size of a resize, are no names.
        [[ $command != write && $command != resize || $COMP_CWORD -eq 3 ]] || return
        # ls prints a name as a word for the shell, so it stands as it is to be typed.
        while IFS= read -r name; do
            [[ $name == "$word"* ]] && COMPREPLY+=("$name")
        done < <("$goofs" ls "${COMP_WORDS[2]}" --numeric --wait 0 2> /dev/null | sed 's/^[^c]*changed [0-9]*  //')
        ;;
    esac
}
# Where there is no reply, files are completed.
complete -o default -F _goofs goofs
