# Completion of mzv for bash.

_mzv() {
    local current=${COMP_WORDS[COMP_CWORD]} before=${COMP_WORDS[COMP_CWORD - 1]} command=${COMP_WORDS[1]} candidates= place=$COMP_CWORD
    if [[ $COMP_CWORD == 2 && $command == @(build|resume|migrate|check|rewrite|show|rational) ]]; then
        compopt -o filenames 2>/dev/null
        mapfile -t COMPREPLY < <(compgen -f -- "$current")
        return
    fi
    # The words of a table stand behind the file of build and resume.
    [[ $command == @(build|resume) ]] && place=$((COMP_CWORD - 1))
    case $place in
    1) candidates="dual list reduce build resume migrate check rewrite show sample rational probe" ;;
    2) [[ $command == @(list|reduce|build|resume|sample) ]] && candidates=$(seq 2 24) ;;
    3) [[ $command == @(list|reduce|build|resume|sample) && $before =~ ^[0-9]{1,2}$ ]] && candidates=$(seq 1 $((10#$before - 1))) ;;
    5) [[ $command == @(reduce|build|resume) ]] && candidates="lex odd" ;;
    esac
    mapfile -t COMPREPLY < <(compgen -W "$candidates" -- "$current")
}

complete -F _mzv mzv
