# Completes the words of cms-canon in fish. scripts/generate writes this file from docs/texts/commands.toml.

complete -c cms-canon -f
complete -c cms-canon -n __fish_use_subcommand -a convert -d 'Write the message from the standard input in DER'
complete -c cms-canon -n __fish_use_subcommand -a show -d 'List what is in the message, one fact a line'
complete -c cms-canon -n __fish_use_subcommand -a changes -d 'List what conversion changes in the message'
complete -c cms-canon -n __fish_use_subcommand -a check -d 'Say which rules of the standards the message breaks'
complete -c cms-canon -n __fish_use_subcommand -a cover -d 'Write the octets that a signature of the message covers'
complete -c cms-canon -n __fish_use_subcommand -a same -d 'Say whether two messages are the same'
complete -c cms-canon -n __fish_use_subcommand -a help -d 'Print help for a command'
complete -c cms-canon -n '__fish_seen_subcommand_from help; and not __fish_seen_subcommand_from convert show changes check cover same' -a 'convert show changes check cover same'
complete -c cms-canon -n __fish_use_subcommand -l version -d 'Print the version'
complete -c cms-canon -n '__fish_seen_subcommand_from cover' -x -l signer -d 'The number of the signer, in the order read, from 0'
complete -c cms-canon -n '__fish_seen_subcommand_from convert' -l many -d 'Read messages to the end of the input, and write the DER of each'
complete -c cms-canon -n '__fish_seen_subcommand_from show changes' -l json -d 'Write one JSON object in place of lines'
complete -c cms-canon -n '__fish_seen_subcommand_from check cover' -l content -d 'Take what follows the message as its content'
complete -c cms-canon -n '__fish_seen_subcommand_from check' -l data -d 'Take what follows the message as the time-stamped data'
complete -c cms-canon -l help -d 'Print help'
