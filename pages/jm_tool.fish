# Completion of jm_tool in fish. Made by scripts/make_pages of `jm_tool --help` and docs/commands.md.
complete -c jm_tool -f
complete -c jm_tool -n __fish_use_subcommand -a 'link' -d 'links modules and all that they require, except by requires static'
complete -c jm_tool -n __fish_use_subcommand -a 'cat' -d 'prints the bytes of the entry of that name'
complete -c jm_tool -n __fish_use_subcommand -a 'list' -d 'prints the size and the name of each resource'
complete -c jm_tool -n __fish_use_subcommand -a 'ls' -d 'prints what a folder of the image holds'
complete -c jm_tool -n __fish_use_subcommand -a 'info' -d 'prints what the header says'
complete -c jm_tool -n __fish_use_subcommand -a 'extract' -d 'writes each resource to a file below DIR'
complete -c jm_tool -n __fish_use_subcommand -a 'verify' -d 'checks the structure of the image and prints the number of its entries'
complete -c jm_tool -n __fish_use_subcommand -a 'decompress' -d 'writes the image of the resources of a compressed image, uncompressed'
complete -c jm_tool -n __fish_use_subcommand -a 'serve' -d 'answers the lines of the input'
complete -c jm_tool -n __fish_use_subcommand -a 'gen' -d 'makes modules below DIR and links them'
complete -c jm_tool -n __fish_use_subcommand -a 'describe' -d 'prints what a module-info.class says'
complete -c jm_tool -n __fish_use_subcommand -a '--help' -d 'prints this text'
complete -c jm_tool -n __fish_use_subcommand -a '--version' -d 'prints the version of the program'
complete -c jm_tool -n '__fish_seen_subcommand_from link' -l module-path -x -a '(__fish_complete_directories)' -d 'the directories to find modules in, with colons between them'
complete -c jm_tool -n '__fish_seen_subcommand_from link' -l add-modules -x -d 'the modules to link; ALL-MODULE-PATH is all of DIRS, or else of the image'
complete -c jm_tool -n '__fish_seen_subcommand_from link' -l output -r -F
complete -c jm_tool -n '__fish_seen_subcommand_from link' -l from-image -r -F -d 'the image to find modules in, before the directories of --module-path'
complete -c jm_tool -n '__fish_seen_subcommand_from link' -l endian -x -a 'little big' -d 'the byte order of the image: little, or big'
complete -c jm_tool -n '__fish_seen_subcommand_from link' -l bind-services -d 'also links the modules that provide services which linked modules use'
complete -c jm_tool -n '__fish_seen_subcommand_from link' -l release -x -d 'accepts class files up to Java N, from 21 to 25; 21 without it'
complete -c jm_tool -n '__fish_seen_subcommand_from link' -l exclude-resources -x -d 'leaves out the resources whose name matches a pattern'
complete -c jm_tool -n '__fish_seen_subcommand_from link' -l order-resources -x -d 'places the resources in the order of the patterns that match their names'
complete -c jm_tool -n '__fish_seen_subcommand_from link' -l keep-order -d 'places the resources in the order of the image of --from-image'
complete -c jm_tool -n '__fish_seen_subcommand_from link' -l strip-java-debug-attributes -d 'removes debug attributes'
complete -c jm_tool -n '__fish_seen_subcommand_from link' -l compact-pool -d 'removes unreferenced constants'
complete -c jm_tool -n '__fish_seen_subcommand_from link' -l module-packages -d 'lists the packages of each module in its descriptor'
complete -c jm_tool -n '__fish_seen_subcommand_from link' -l drop-system-modules -d 'removes the classes of java.base that name all modules of another image'
complete -c jm_tool -n '__fish_seen_subcommand_from link' -l jobs -x -d 'uses up to N threads, from 1 to 64; the output is the same'
complete -c jm_tool -n '__fish_seen_subcommand_from cat' -F
complete -c jm_tool -n '__fish_seen_subcommand_from cat' -l jobs -x -d 'uses up to N threads, from 1 to 64; the output is the same'
complete -c jm_tool -n '__fish_seen_subcommand_from list' -F
complete -c jm_tool -n '__fish_seen_subcommand_from list' -l include -x -d 'takes only the resources whose name matches a pattern of the list'
complete -c jm_tool -n '__fish_seen_subcommand_from list' -l sha256 -d 'prints the SHA-256 of the content of each resource before its size'
complete -c jm_tool -n '__fish_seen_subcommand_from list' -l jobs -x -d 'uses up to N threads, from 1 to 64; the output is the same'
complete -c jm_tool -n '__fish_seen_subcommand_from ls' -F
complete -c jm_tool -n '__fish_seen_subcommand_from ls' -l jobs -x -d 'uses up to N threads, from 1 to 64; the output is the same'
complete -c jm_tool -n '__fish_seen_subcommand_from info' -F
complete -c jm_tool -n '__fish_seen_subcommand_from info' -l jobs -x -d 'uses up to N threads, from 1 to 64; the output is the same'
complete -c jm_tool -n '__fish_seen_subcommand_from extract' -F
complete -c jm_tool -n '__fish_seen_subcommand_from extract' -l dir -x -a '(__fish_complete_directories)'
complete -c jm_tool -n '__fish_seen_subcommand_from extract' -l include -x -d 'takes only the resources whose name matches a pattern of the list'
complete -c jm_tool -n '__fish_seen_subcommand_from extract' -l jobs -x -d 'uses up to N threads, from 1 to 64; the output is the same'
complete -c jm_tool -n '__fish_seen_subcommand_from verify' -F
complete -c jm_tool -n '__fish_seen_subcommand_from verify' -l nodes -d 'also checks the contents of the nodes of the two trees'
complete -c jm_tool -n '__fish_seen_subcommand_from verify' -l jobs -x -d 'uses up to N threads, from 1 to 64; the output is the same'
complete -c jm_tool -n '__fish_seen_subcommand_from decompress' -F
complete -c jm_tool -n '__fish_seen_subcommand_from decompress' -l output -r -F
complete -c jm_tool -n '__fish_seen_subcommand_from decompress' -l jobs -x -d 'uses up to N threads, from 1 to 64; the output is the same'
complete -c jm_tool -n '__fish_seen_subcommand_from serve' -F
complete -c jm_tool -n '__fish_seen_subcommand_from serve' -l jobs -x -d 'uses up to N threads, from 1 to 64; the output is the same'
complete -c jm_tool -n '__fish_seen_subcommand_from gen' -a '(__fish_complete_directories)'
complete -c jm_tool -n '__fish_seen_subcommand_from gen' -l modules -x
complete -c jm_tool -n '__fish_seen_subcommand_from gen' -l classes -x
complete -c jm_tool -n '__fish_seen_subcommand_from gen' -l seed -x
complete -c jm_tool -n '__fish_seen_subcommand_from gen' -l jobs -x -d 'uses up to N threads, from 1 to 64; the output is the same'
complete -c jm_tool -n '__fish_seen_subcommand_from describe' -F
complete -c jm_tool -n '__fish_seen_subcommand_from describe' -l release -x -d 'accepts class files up to Java N, from 21 to 25; 21 without it'
complete -c jm_tool -n '__fish_seen_subcommand_from describe' -l jobs -x -d 'uses up to N threads, from 1 to 64; the output is the same'
