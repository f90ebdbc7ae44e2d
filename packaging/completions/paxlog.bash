# Completion of paxlog(1) for bash.
_paxlog() {
    local word=${COMP_WORDS[COMP_CWORD]}
    if [ "$COMP_CWORD" = 1 ] || [ "${COMP_WORDS[1]}:$COMP_CWORD" = help:2 ]; then
        mapfile -t COMPREPLY < <(compgen -W 'append append-lines root prove show show-image consistency check find recover verify verify-consistency keygen checkpoint verify-checkpoint tiles cosign audit keep keep-bundles keep-files follow needs needs-entry tile-proof receipt verify-receipt witness witness-request keygen-witness help --help' -- "$word")
        return
    fi
    case ${COMP_WORDS[1]}:$COMP_CWORD in
    append:* | append-lines:[23] | root:2 | prove:2 | show:2 | show-image:2 | consistency:2 | check:2 | find:[23] | recover:[23] | verify:5 | keygen:3 | keygen-witness:3 | checkpoint:[24] | verify-checkpoint:3 | tiles:[235] | cosign:* | audit:2 | keep:[24] | keep-bundles:[24] | keep-files:* | follow:[24] | needs:[24] | needs-entry:2 | tile-proof:2 | receipt:2 | verify-receipt:[34] | witness:[246] | witness-request:[35])
        compopt -o filenames
        mapfile -t COMPREPLY < <(compgen -f -- "$word")
        ;;
    esac
}
complete -F _paxlog paxlog
