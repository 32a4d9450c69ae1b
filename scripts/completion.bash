# Completion for bash of ipegate and hash_device; scripts/install puts it where bash looks for it.

_ipegate() {
    local current=${COMP_WORDS[COMP_CWORD]} command=${COMP_WORDS[1]} place=$COMP_CWORD
    COMPREPLY=()
    if [ "${COMP_WORDS[0]##*/}" = hash_device ]; then
        command=root
        place=$((place + 1))
    elif [ "$place" = 1 ]; then
        mapfile -t COMPREPLY < <(compgen -W 'lint replay sim root measure --help --version' -- "$current")
        return
    fi
    case $command:$place in
    root:2) mapfile -t COMPREPLY < <(compgen -W '512 1024 2048 4096' -- "$current") ;;
    measure:2) mapfile -t COMPREPLY < <(compgen -W '1024 2048 4096' -- "$current") ;;
    root:3 | measure:3) mapfile -t COMPREPLY < <(compgen -W '-' -- "$current") ;;
    *) mapfile -t COMPREPLY < <(compgen -f -- "$current") ;;
    esac
}

complete -o filenames -F _ipegate ipegate hash_device
