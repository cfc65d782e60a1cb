# Completions of esgrep for bash. tools/esgrep_pages makes this file.
_esgrep() {
    local word="${COMP_WORDS[COMP_CWORD]}"
    case "$word" in
    --color=*) COMPREPLY=($(compgen -W "always never auto" -- "${word#*=}")) ;;
    -*) COMPREPLY=($(compgen -W "--after-context --before-context --byte-offset --color --context --count --exclude --file --files-with-matches --files-without-match --fixed-strings --flags --groups --help --ignore-case --include --invert-match --line-buffered --line-number --line-regexp --max-count --max-steps --multiline --no-filename --no-messages --null --null-data --only-matching --progress --quiet --recursive --regex-size-limit --regexp --replace --skip-binary --stats --text --version --with-filename --word-regexp -A -B -C -F -H -I -L -U -V -Z -a -b -c -e -f -h -i -l -m -n -o -q -r -s -v -w -x -z" -- "$word")) ;;
    *) COMPREPLY=($(compgen -f -- "$word")) ;;
    esac
}
complete -F _esgrep esgrep
