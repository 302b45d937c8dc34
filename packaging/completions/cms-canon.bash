# shellcheck shell=bash
# Completes the words of cms-canon in bash. scripts/generate writes this file from docs/texts/commands.toml.

_cms_canon() {
    local word=${COMP_WORDS[COMP_CWORD]} words=''
    case ${COMP_WORDS[COMP_CWORD - 1]} in
        '<' | '>' | '>>') compopt -o default; return ;;
        --signer) return ;;
    esac
    case $COMP_CWORD:${COMP_WORDS[1]}:$word in
        1:*) words='convert show changes check cover same help --help --version' ;;
        2:help:*) words='convert show changes check cover same' ;;
        *:convert:-*) words='--many --help' ;;
        *:show:-*) words='--json --help' ;;
        *:changes:-*) words='--json --help' ;;
        *:check:-*) words='--content --data --help' ;;
        *:cover:*) words='--signer --content --help' ;;
        *:same:-*) words='--help' ;;
    esac
    mapfile -t COMPREPLY < <(compgen -W "$words" -- "$word")
}

complete -F _cms_canon cms-canon
