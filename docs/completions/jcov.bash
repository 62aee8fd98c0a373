# Made by docs/words.py from docs/COMMANDS.md
# Source it, or put it as jcov into /usr/share/bash-completion/completions.
_jcov_paths() {
    compopt -o filenames
    mapfile -t COMPREPLY < <(compgen -d -- "$2"; [ "$1" = / ] || compgen -f -X "!*$1" -- "$2")
}

_jcov() {
    local word=${COMP_WORDS[COMP_CWORD]} before=${COMP_WORDS[COMP_CWORD - 1]} options rest
    COMPREPLY=()
    if [ "$COMP_CWORD" -eq 1 ]; then
        mapfile -t COMPREPLY < <(compgen -W "instrument run merge report execinfo classinfo cover refs lines check" -- "$word")
        return
    fi
    if [ "$word" = = ]; then
        word=
    elif [ "$before" = = ]; then
        before=${COMP_WORDS[COMP_CWORD - 2]}
    fi
    case $before in
        --dest) _jcov_paths "/" "$word"; return ;;
        --plan) _jcov_paths "" "$word"; return ;;
        --destfile) _jcov_paths ".exec" "$word"; return ;;
        --workers) return ;;
        --dumps) _jcov_paths "/" "$word"; return ;;
        --every) return ;;
        --csv) _jcov_paths ".csv" "$word"; return ;;
        --name) return ;;
        --exec) _jcov_paths ".exec" "$word"; return ;;
        --sample) return ;;
        --min) return ;;
    esac
    case ${COMP_WORDS[1]} in
        instrument) options="--dest " rest=".class" ;;
        run) options="--plan --destfile --workers --dumps --every --monitors " rest=".class" ;;
        merge) options="--destfile " rest=".exec" ;;
        report) options="--csv --name --exec " rest=".class" ;;
        execinfo) options="" rest=".exec" ;;
        classinfo) options="" rest=".class" ;;
        cover) options="--dest --plan --destfile --csv --workers --name --sample " rest=".class" ;;
        refs) options="" rest=".class" ;;
        lines) options="--exec " rest=".class" ;;
        check) options="--min --exec " rest=".class" ;;
        *) return ;;
    esac
    if [[ $word == -* ]]; then
        for before in "${COMP_WORDS[@]:2:COMP_CWORD-2}"; do
            options=${options/"$before "/}
        done
        mapfile -t COMPREPLY < <(compgen -W "$options" -- "$word")
    elif [ -n "$rest" ]; then
        _jcov_paths "$rest" "$word"
    fi
}
complete -F _jcov jcov
