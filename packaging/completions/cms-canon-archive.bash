# Completes the words of cms-canon-archive in bash: the command itself says what may follow.

_cms_canon_archive() {
    local kind word
    COMPREPLY=()
    while IFS=, read -r kind word; do
        case $kind in
            dir) compopt -o dirnames ;;
            file) compopt -o default ;;
            plain) COMPREPLY+=("$word") ;;
        esac
    done < <(COMP_WORDS="${COMP_WORDS[*]}" COMP_CWORD=$COMP_CWORD _CMS_CANON_ARCHIVE_COMPLETE=bash_complete cms-canon-archive 2>/dev/null)
}

complete -o nosort -F _cms_canon_archive cms-canon-archive
