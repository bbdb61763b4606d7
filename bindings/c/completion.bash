# Completions of `borsh` for bash: its commands, the options of each, which its --help tells, and files.
_borsh() {
    local tool=$1 word=$2 words
    COMPREPLY=()
    if ((COMP_CWORD == 1)); then
        words=$("$tool" --help 2>/dev/null | sed -n '/^Commands:/,/^$/s/^  \([a-z]*\) .*/\1/p; s/^  -h, \(--help\) .*/\1/p')
    elif [[ $word == -* ]]; then
        words=$("$tool" "${COMP_WORDS[1]}" --help 2>/dev/null | sed -n 's/^  .*\(--[a-z-]*\)\( <[A-Z]*>\)\?  .*/\1/p')
    else
        words=$("$tool" "${COMP_WORDS[1]}" --help 2>/dev/null | sed -n 's/.* or `\(self\)` for .*/\1/p')
        mapfile -t COMPREPLY < <(compgen -f -- "$word")
    fi
    mapfile -t -O "${#COMPREPLY[@]}" COMPREPLY < <(compgen -W "$words" -- "$word")
}
complete -o filenames -F _borsh borsh
