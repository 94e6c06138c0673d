# Completions of bx for bash. Written by scripts/manual.
_bx() {
    local word=${COMP_WORDS[COMP_CWORD]} before=${COMP_WORDS[COMP_CWORD-1]} options=
    COMPREPLY=()
    if [ "$COMP_CWORD" = 1 ]; then
        COMPREPLY=($(compgen -W "plan check amend capacity explain quote chart day serve far audit records sold decode help --help --version" -- "$word"))
        return
    fi
    case ${COMP_WORDS[1]} in
        plan) options="--date --zone --channels --help" ;;
        check) options="--date --zone --channels --help" ;;
        amend) options="--date --zone --help" ;;
        capacity) options="--date --zone --help" ;;
        explain) options="--help" ;;
        quote) options="--inward --date --zone --help" ;;
        chart) options="--journal --date --zone --help" ;;
        day) options="--turns --journal --records --capture --date --zone --quiet --help" ;;
        serve) options="--port --socket --live --line --date --zone --journal --office --office-port --origin --counter --counter-port --counter-origin --rate --pace --turns --records --capture --quiet --help" ;;
        far) options="--port --socket --line --date --zone --pace --turns --capture --quiet --help" ;;
        audit) options="--capture --date --zone --help" ;;
        records) options="--date --zone --quiet --help" ;;
        sold) options="--help" ;;
        decode) options="--help" ;;
        help) COMPREPLY=($(compgen -W "plan check amend capacity explain quote chart day serve far audit records sold decode faults" -- "$word")); return ;;
    esac
    case $before in
        --channels | --counter-origin | --counter-port | --date | --line | --office-port | --origin | --pace | --port | --rate | --turns | --zone) return ;;
    esac
    case $word in
        -*) COMPREPLY=($(compgen -W "$options" -- "$word")) ;;
        *) COMPREPLY=($(compgen -f -- "$word")) ;;
    esac
}
complete -o filenames -F _bx bx
