#!/usr/bin/env bash
# Asks the completions for bash and, where it is there, for zsh what may follow some words.
cd "$(dirname "$0")/../completions" || exit 1
. ./mzv.bash
. ./mzv_merge.bash
passed=0 failed=0

# offers WANTED WORD..: what is offered for the last of the words, the first of which is the program
offers() {
    local wanted=$1 COMPREPLY=()
    shift
    COMP_WORDS=("$@") COMP_CWORD=$(($# - 1))
    "_$1"
    if [[ ${COMPREPLY[*]} == "$wanted" ]]; then
        passed=$((passed + 1))
    else
        failed=$((failed + 1))
        echo "$*: offers '${COMPREPLY[*]}', and not '$wanted'"
    fi
}

offers "dual list reduce build resume migrate check rewrite show sample rational probe" mzv ""
offers "dual" mzv d
offers "show sample" mzv s
offers "mzv.bash" mzv show mzv.
offers "mzv.bash" mzv check mzv.
offers "mzv.bash" mzv build mzv.
offers "2 20 21 22 23 24" mzv build table 2
offers "1 2 3" mzv build table 4 ""
offers "" mzv build table 4 3 ""
offers "lex odd" mzv build table 4 3 101 ""
offers "" mzv build table 4 3 101 lex ""
offers "mzv.bash" mzv resume mzv.
offers "2 20 21 22 23 24" mzv resume table 2
offers "1 2 3" mzv resume table 4 ""
offers "lex odd" mzv resume table 4 3 101 ""
offers "mzv.bash" mzv migrate mzv.
offers "" mzv migrate table ""
offers "mzv.bash" mzv rewrite mzv.
offers "" mzv show mzv.bash ""
offers "reduce resume rewrite rational" mzv r
offers "mzv.bash" mzv rational mzv.
offers "2 20 21 22 23 24" mzv list 2
offers "2 20 21 22 23 24" mzv sample 2
offers "1 2 3" mzv list 4 ""
offers "1 2 3" mzv reduce 4 ""
offers "" mzv list 1 ""
offers "" mzv list x ""
offers "" mzv dual ""
offers "" mzv probe ""
offers "" mzv list 4 3 ""
offers "" mzv reduce 4 3 ""
offers "lex odd" mzv reduce 4 3 101 ""
offers "odd" mzv reduce 4 3 101 o
offers "" mzv sample 4 3 101 ""
offers "share merge" mzv_merge ""
offers "merge" mzv_merge m
offers "2 20 21 22 23 24" mzv_merge share 2
offers "1 2 3" mzv_merge share 4 ""
offers "" mzv_merge share 4 3 ""
offers "lex odd" mzv_merge share 4 3 101 ""
offers "" mzv_merge share 4 3 101 lex ""
offers "254 255 256" mzv_merge share 4 3 101 lex 253 ""
offers "" mzv_merge share 4 3 101 lex x ""
offers "" mzv_merge share 4 3 101 lex 0 2 ""
offers "2 20 21 22 23 24" mzv_merge merge 2
offers "1 2 3" mzv_merge merge 4 ""
offers "lex odd" mzv_merge merge 4 3 101 ""
offers "" mzv_merge merge 4 3 101 lex ""
offers "mzv_merge.bash" mzv_merge merge 4 3 101 lex 2 mzv_
offers "mzv_merge.bash" mzv_merge merge 4 3 101 lex 2 mzv.bash mzv_

# describes WANTED WORD..: the same for zsh, whose own functions are replaced by ones that print what they are given
describes() {
    local wanted=$1 printed
    shift
    printed=$(zsh -f -c '
        words=("$@") CURRENT=$#
        _describe() { echo ${(P)2%%:*} }
        _values() { shift; echo $@ }
        _message() { echo $1 }
        _files() { echo files }
        functions[complete_it]=$(<./_$1)
        complete_it' zsh "$@")
    if [[ $printed == "$wanted" ]]; then
        passed=$((passed + 1))
    else
        failed=$((failed + 1))
        echo "zsh, $*: offers '$printed', and not '$wanted'"
    fi
}

if command -v zsh >/dev/null 2>&1; then
    describes "dual list reduce build resume migrate check rewrite show sample rational probe" mzv ""
    describes "files" mzv show ""
    describes "files" mzv check ""
    describes "files" mzv build ""
    describes "1 2 3" mzv build table 4 ""
    describes "modulus, from 3 to 9223372036854775807" mzv build table 4 3 ""
    describes "lex odd" mzv build table 4 3 101 ""
    describes "files" mzv resume ""
    describes "1 2 3" mzv resume table 4 ""
    describes "lex odd" mzv resume table 4 3 101 ""
    describes "files" mzv migrate ""
    describes "files" mzv rewrite ""
    describes "files" mzv rational ""
    describes "" mzv show table ""
    describes "2 3 4 5 6 7 8 9 10 11 12 13 14 15 16 17 18 19 20 21 22 23 24" mzv list ""
    describes "2 3 4 5 6 7 8 9 10 11 12 13 14 15 16 17 18 19 20 21 22 23 24" mzv sample ""
    describes "1 2 3" mzv list 4 ""
    describes "1 2 3" mzv reduce 4 ""
    describes "" mzv list 25 ""
    describes "modulus, from 3 to 9223372036854775807" mzv dual ""
    describes "modulus, from 3 to 9223372036854775807" mzv probe 10 ""
    describes "lex odd" mzv reduce 4 3 101 ""
    describes "count of lines, at most 100000" mzv sample 4 3 101 1 ""
    describes "" mzv dual 101 ""
    describes "share merge" mzv_merge ""
    describes "1 2 3" mzv_merge share 4 ""
    describes "lex odd" mzv_merge share 4 3 101 ""
    describes "number of the share, from 0" mzv_merge share 4 3 101 lex ""
    describes "254 255 256" mzv_merge share 4 3 101 lex 253 ""
    describes "" mzv_merge share 4 3 101 lex 0 2 ""
    describes "1 2 3" mzv_merge merge 4 ""
    describes "lex odd" mzv_merge merge 4 3 101 ""
    describes "how many shares, from 1 to 256" mzv_merge merge 4 3 101 lex ""
    describes "files" mzv_merge merge 4 3 101 lex 2 ""
    describes "files" mzv_merge merge 4 3 101 lex 2 file ""
else
    echo "zsh is missing: its completion is not asked"
fi
echo "$passed passed, $failed failed"
exit $((failed > 0))
