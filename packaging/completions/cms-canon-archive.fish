# Completes the words of cms-canon-archive in fish: the command itself says what may follow.

function __cms_canon_archive_words
    set -lx _CMS_CANON_ARCHIVE_COMPLETE fish_complete
    set -lx COMP_WORDS (commandline -cp)
    set -lx COMP_CWORD (commandline -t)
    for line in (cms-canon-archive 2>/dev/null)
        set -l said (string split -m 1 , -- $line)
        switch $said[1]
            case dir
                __fish_complete_directories "$said[2]"
            case file
                __fish_complete_path "$said[2]"
            case plain
                echo $said[2]
        end
    end
end

complete -c cms-canon-archive -f -a '(__cms_canon_archive_words)'
