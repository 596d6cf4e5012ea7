# made by tools/words.py from share/words.json
_mscjudge() {
    local word=${COMP_WORDS[COMP_CWORD]} words=""
    if [ "$COMP_CWORD" -eq 1 ]; then
        COMPREPLY=($(compgen -W "judge next sessions choices check list print sample" -- "$word"))
        return
    fi
    case ${COMP_WORDS[1]} in
        judge) [[ $word == -* ]] && words="--budget --json --log-json" ;;
        next) [[ $word == -* ]] && words="--budget" ;;
        sessions) [[ $word == -* ]] && words="--budget --log-json" ;;
        choices) [[ $word == -* ]] && words="" ;;
        check) [[ $word == -* ]] && words="--json" ;;
        list) [[ $word == -* ]] && words="--json" ;;
        print) [[ $word == -* ]] && words="" ;;
        sample) [[ $word == -* ]] && words="" ;;
    esac
    if [ -n "$words" ]; then
        COMPREPLY=($(compgen -W "$words" -- "$word"))
    else
        COMPREPLY=($(compgen -f -- "$word"))
    fi
}
complete -o filenames -F _mscjudge mscjudge
