#compdef cilk
# Completions of `cilk` for zsh, by tools/completions.py: `. docs/completions/cilk.zsh` in ~/.zshrc, after compinit
_cilk() {
    local words_of=
    case $CURRENT:$words[2]:$words[CURRENT-1] in
        2:*) compadd -- explain settle run certify check threads play schedule measure judge help --help --version; return ;;
        3:help:*) compadd -- explain settle run certify check threads play schedule measure judge; return ;;
        *:--input | *:--on | *:--sites) _files; return ;;
        *:--workers | *:--helpers | *:--why | *:--fix | *:explain:*) return ;;
        *:settle:*) words_of="--input --every --fix --short --json --why --explain --color --help" ;;
        *:run:*) words_of="--input --explain --color --help" ;;
        *:certify:*) words_of="--input --explain --color --help" ;;
        *:check:*) words_of="--input --helpers --explain --color --help" ;;
        *:threads:*) words_of="--workers --input --on --stats --explain --color --help" ;;
        *:play:*) words_of="--workers --input --strict --trace --explain --color --help" ;;
        *:schedule:*) words_of="--input --explain --color --help" ;;
        *:measure:*) words_of="--input --csv --svg --dot --explain --color --help" ;;
        *:judge:*) words_of="--sites --explain --color --help" ;;
    esac
    [[ $PREFIX == -* ]] && compadd -- ${=words_of} || _files
}
compdef _cilk cilk
