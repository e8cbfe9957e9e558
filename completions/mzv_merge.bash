# Completion of mzv_merge for bash.

_mzv_merge() {
    local current=${COMP_WORDS[COMP_CWORD]} before=${COMP_WORDS[COMP_CWORD - 1]} command=${COMP_WORDS[1]} candidates=
    if [[ $COMP_CWORD -ge 7 && $command == merge ]]; then
        compopt -o filenames 2>/dev/null
        mapfile -t COMPREPLY < <(compgen -f -- "$current")
        return
    fi
    case $command,$COMP_CWORD in
    *,1) candidates="share merge" ;;
    share,2 | merge,2) candidates=$(seq 2 24) ;;
    share,3 | merge,3) [[ $before =~ ^[0-9]{1,2}$ ]] && candidates=$(seq 1 $((10#$before - 1))) ;;
    share,5 | merge,5) candidates="lex odd" ;;
    share,7) [[ $before =~ ^[0-9]{1,3}$ ]] && candidates=$(seq $((10#$before + 1)) 256) ;;
    esac
    mapfile -t COMPREPLY < <(compgen -W "$candidates" -- "$current")
}

complete -F _mzv_merge mzv_merge
