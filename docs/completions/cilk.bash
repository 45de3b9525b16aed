# Completions of `cilk` for bash, by tools/completions.py: `. docs/completions/cilk.bash` in ~/.bashrc
_cilk() {
    local word=${COMP_WORDS[COMP_CWORD]} words= files=-f
    case $COMP_CWORD:${COMP_WORDS[1]}:${COMP_WORDS[COMP_CWORD - 1]} in
        1:*) words="explain settle run certify check threads play schedule measure judge help --help --version" files= ;;
        2:help:*) words="explain settle run certify check threads play schedule measure judge" files= ;;
        *:--input | *:--on | *:--sites) ;;
        *:--workers | *:--helpers | *:--why | *:--fix | *:explain:*) files= ;;
        *:settle:*) words="--input --every --fix --short --json --why --explain --color --help" ;;
        *:run:*) words="--input --explain --color --help" ;;
        *:certify:*) words="--input --explain --color --help" ;;
        *:check:*) words="--input --helpers --explain --color --help" ;;
        *:threads:*) words="--workers --input --on --stats --explain --color --help" ;;
        *:play:*) words="--workers --input --strict --trace --explain --color --help" ;;
        *:schedule:*) words="--input --explain --color --help" ;;
        *:measure:*) words="--input --csv --svg --dot --explain --color --help" ;;
        *:judge:*) words="--sites --explain --color --help" ;;
    esac
    [ -n "$files" ] && [ "${word#-}" = "$word" ] && words=
    mapfile -t COMPREPLY < <(compgen $files -W "$words" -- "$word")
}
complete -o filenames -F _cilk cilk
