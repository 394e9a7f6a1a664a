# Completion of ssu for bash: source this file. It knows the commands, the files of the folder and PIDs that are often used.

_ssu() {
    local word=${COMP_WORDS[COMP_CWORD]} folder=${COMP_WORDS[1]} command=${COMP_WORDS[2]}
    COMPREPLY=()
    # a folder that begins with ~ is what the shell makes of it
    folder=${folder/#\~/$HOME}
    case $COMP_CWORD in
    1)
        mapfile -t COMPREPLY < <(compgen -W '--help --version' -- "$word"; compgen -d -S / -- "$word")
        [ "${#COMPREPLY[@]}" -eq 1 ] && [[ ${COMPREPLY[0]} == */ ]] && compopt -o nospace
        ;;
    2)
        [[ $folder == --* ]] ||
            mapfile -t COMPREPLY < <(compgen -W 'hear load find show build blank format boot migrate replay air audit sample' -- "$word")
        ;;
    3)
        case $command in
        format)
            # the files of the folder whose names `format` takes
            local name
            for name in "${folder:-.}"/*; do
                name=${name##*/}
                [[ -f ${folder:-.}/$name && $name == "$word"* && ${#name} -le 64 && $name =~ ^[A-Za-z0-9_-][A-Za-z0-9._-]*$ ]] &&
                    COMPREPLY+=("$name")
            done
            ;;
        boot | migrate | replay)
            mapfile -t COMPREPLY < <(compgen -W spares -- "$word")
            ;;
        hear | load | audit)
            # the PIDs of the plan, where the folder has one
            [ -f "${folder:-.}/plan.toml" ] &&
                mapfile -t COMPREPLY < <(compgen -W "$(sed -n 's/^[a-z]*_pid *= *\([0-9]*\).*/\1/p' "${folder:-.}/plan.toml")" -- "$word")
            ;;
        esac
        ;;
    4)
        # the notice of a carousel is on another PID
        [[ $command == audit && -f ${folder:-.}/plan.toml ]] &&
            mapfile -t COMPREPLY < <(compgen -W "$(sed -n 's/^[a-z]*_pid *= *\([0-9]*\).*/\1/p' "${folder:-.}/plan.toml" | grep -vx -- "${COMP_WORDS[3]}")" -- "$word")
        [ "$command" = format ] && mapfile -t COMPREPLY < <(compgen -W spares -- "$word")
        ;;
    esac
}

complete -F _ssu ssu ./ssu
