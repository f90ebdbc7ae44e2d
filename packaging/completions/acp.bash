# Completion of acp(1) for bash.
_acp() {
    [ "$COMP_CWORD" = 1 ] && mapfile -t COMPREPLY < <(compgen -W 'sha256 toy' -- "${COMP_WORDS[1]}")
}
complete -F _acp acp
