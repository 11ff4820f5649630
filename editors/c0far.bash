# Completion of c0far for bash: `. editors/c0far.bash`, or a copy in ~/.local/share/bash-completion/completions/c0far.

# The options of a command.
_c0far_options() {
    local memory='--frames --objects --store --fail-from' work='--evacuators --fetchers --workers --quantum'
    case $1 in
        build) echo '-d --level --piece -o' ;;
        check) echo '--level' ;;
        list) echo '--level --piece' ;;
        mean) echo '-d --level --turns --where --memory' ;;
        run) echo "-d --level --piece $memory $work --live --stats --where --memory" ;;
        replay) echo "-d --level --piece $memory $work --schedule" ;;
    esac
}

_c0far() {
    local word=${COMP_WORDS[COMP_CWORD]} before=${COMP_WORDS[COMP_CWORD - 1]} command=${COMP_WORDS[1]}
    local commands='build check list mean replay run help'
    COMPREPLY=()
    if ((COMP_CWORD == 1)); then
        mapfile -t COMPREPLY < <(compgen -W "$commands --version" -- "$word")
        return
    fi
    if [[ $command == help ]]; then
        mapfile -t COMPREPLY < <(compgen -W "$commands faults images stops" -- "$word")
        return
    fi
    case $before in
        --level) mapfile -t COMPREPLY < <(compgen -W '0 1' -- "$word") ;;
        --piece) mapfile -t COMPREPLY < <(compgen -W '16 32 64 128 256' -- "$word") ;;
        --store) mapfile -t COMPREPLY < <(compgen -d -- "$word") ;;
        --schedule | -o) mapfile -t COMPREPLY < <(compgen -f -- "$word") ;;
        --frames | --objects | --fail-from | --evacuators | --fetchers | --workers | --quantum | --turns | --memory) ;;
        *)
            if [[ $word == -* ]]; then
                mapfile -t COMPREPLY < <(compgen -W "$(_c0far_options "$command")" -- "$word")
            else
                # texts and images, and the folders on the way to them
                mapfile -t COMPREPLY < <(compgen -d -S / -- "$word"; compgen -f -X '!*.c0' -- "$word"; compgen -f -X '!*.c0i' -- "$word")
                [[ ${COMPREPLY[0]} != */ ]] || compopt -o nospace
            fi
            ;;
    esac
}

complete -o filenames -F _c0far c0far
