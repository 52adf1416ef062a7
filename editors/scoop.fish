# Completions of scoop for fish: this file is named scoop.fish in ~/.config/fish/completions.

# Whether the command of this line is the given one.
function __scoop_is
    set -l words (commandline -opc)
    test "$words[2]" = "$argv[1]"
end

# Whether the command of this line is the given one, and the word isn't an option.
function __scoop_gives
    __scoop_is $argv; and not string match -q -- '-*' (commandline -ct)
end

# Whether there is no command yet.
function __scoop_is_first
    test (count (commandline -opc)) = 1
end

# The codes, with their names.
function __scoop_codes
    timeout 2 scoop explain 2>/dev/null | string replace ' ' \t
end

complete -c scoop -f
# `.ci/commands --write PROGRAM` writes these lines.
# what `scoop --help` says
complete -c scoop -n __scoop_is_first -l help -d 'Print help (see a summary with \'-h\')'
complete -c scoop -n __scoop_is_first -l version -d 'Print version'
complete -c scoop -n __scoop_is_first -a check -d 'Says whether a system is well formed'
complete -c scoop -n __scoop_is_first -a run -d 'Runs a system, and reports what became of each handler'
complete -c scoop -n __scoop_is_first -a replay -d 'Plays the turns of a record, and reports what became of each handler'
complete -c scoop -n __scoop_is_first -a search -d 'Looks for an order of turns in which handlers are stuck, or one fails or refuses a request'
complete -c scoop -n __scoop_is_first -a test -d 'Runs the tests of a system, or plays them in every order of turns'
complete -c scoop -n __scoop_is_first -a print -d 'Writes the text of a system in its one canonical layout'
complete -c scoop -n __scoop_is_first -a format -d 'Writes a text in its layout, with its comments'
complete -c scoop -n __scoop_is_first -a explain -d 'Says what a code stands for, and why'
complete -c scoop -n __scoop_is_first -a lsp -d 'Answers an editor, by the language server protocol'
complete -c scoop -n __scoop_is_first -a help -d 'Print this message or the help of the given subcommand(s)'
complete -c scoop -n '__scoop_is check' -l all -d 'Lists each place at which a rule is broken, and warns'
complete -c scoop -n '__scoop_is check' -l explain -d 'Shows where a refusal stands, on standard error; the default where that is a terminal'
complete -c scoop -n '__scoop_is check' -l no-explain -d 'Leaves that out'
complete -c scoop -n '__scoop_is check' -l format -x -a 'text json' -d 'How the answer is written: as lines, or as one object of JSON; with `--all` as one array'
complete -c scoop -n '__scoop_is check' -l root -x -d 'The root class and its creation procedure'
complete -c scoop -n '__scoop_is check' -l help -d 'Print help (see a summary with \'-h\')'
complete -c scoop -n '__scoop_gives check' -k -a '(__fish_complete_suffix .e)'
complete -c scoop -n '__scoop_is run' -l workers -x -d 'How many threads play the handlers, 1 to 8'
complete -c scoop -n '__scoop_is run' -l turns -x -d 'The most turns that are played, 1 to 10000000'
complete -c scoop -n '__scoop_is run' -l output-limit -x -d 'Ends the run once all that is printed has more bytes than this, 0 to 1000000000000'
complete -c scoop -n '__scoop_is run' -l seed -x -d 'Picks the handler of each turn at random, by this seed, 0 to 1000000000000'
complete -c scoop -n '__scoop_is run' -l times -x -d 'Plays at most this many runs, by one seed after the other, and lists their reports, 1 to 1000000000'
complete -c scoop -n '__scoop_is run' -l until -x -a 'fails stuck refused differs' -d 'Ends with the first run that shows this, and reports it; `differs`: another report than the first'
complete -c scoop -n '__scoop_is run' -l record -r -F -d 'Writes the record of the run to this file, for `scoop replay`'
complete -c scoop -n '__scoop_is run' -l audit -d 'Plays the record by one thread, and says whether that ends in the same'
complete -c scoop -n '__scoop_is run' -l trace -a 'all print' -d 'Tells each turn that concerns others as it is made, or only what is printed, on standard error'
complete -c scoop -n '__scoop_is run' -l stats -d 'Says in numbers what each handler did: turns, requests, waits and objects'
complete -c scoop -n '__scoop_is run' -l trace-events -r -F -d 'Writes the turns to this file in the Trace Event format, for Perfetto or Chrome\'s viewer'
complete -c scoop -n '__scoop_is run' -l timeline -r -F -d 'Draws the turns to this file, a page that a browser shows'
complete -c scoop -n '__scoop_is run' -l explain -d 'Shows where a refusal stands, or says why handlers failed or wait, on standard error; the default where that is a terminal'
complete -c scoop -n '__scoop_is run' -l no-explain -d 'Leaves that out'
complete -c scoop -n '__scoop_is run' -l format -x -a 'text json' -d 'How the answer is written: as lines, or as one object of JSON'
complete -c scoop -n '__scoop_is run' -l root -x -d 'The root class and its creation procedure'
complete -c scoop -n '__scoop_is run' -l help -d 'Print help (see a summary with \'-h\')'
complete -c scoop -n '__scoop_gives run' -k -a '(__fish_complete_suffix .e)'
complete -c scoop -n '__scoop_is replay' -l trace -a 'all print' -d 'Tells each turn that concerns others as it is made, or only what is printed, on standard error'
complete -c scoop -n '__scoop_is replay' -l stats -d 'Says in numbers what each handler did: turns, requests, waits and objects'
complete -c scoop -n '__scoop_is replay' -l trace-events -r -F -d 'Writes the turns to this file in the Trace Event format, for Perfetto or Chrome\'s viewer'
complete -c scoop -n '__scoop_is replay' -l timeline -r -F -d 'Draws the turns to this file, a page that a browser shows'
complete -c scoop -n '__scoop_is replay' -l explain -d 'Shows where a refusal stands, or says why handlers failed or wait, on standard error; the default where that is a terminal'
complete -c scoop -n '__scoop_is replay' -l no-explain -d 'Leaves that out'
complete -c scoop -n '__scoop_is replay' -l format -x -a 'text json' -d 'How the answer is written: as lines, or as one object of JSON'
complete -c scoop -n '__scoop_is replay' -l root -x -d 'The root class and its creation procedure'
complete -c scoop -n '__scoop_is replay' -l help -d 'Print help (see a summary with \'-h\')'
complete -c scoop -n '__scoop_is replay' -F
complete -c scoop -n '__scoop_is search' -l for -x -a 'stuck fails refused any' -d 'What ends the search'
complete -c scoop -n '__scoop_is search' -l states -x -d 'The most states that are kept, 1 to 10000000'
complete -c scoop -n '__scoop_is search' -l memory -x -d 'The most memory that states take, in MB, 1 to 1000000'
complete -c scoop -n '__scoop_is search' -l record -r -F -d 'Writes the record of the order that is found to this file'
complete -c scoop -n '__scoop_is search' -l outcomes -d 'Lists each outcome: the report of an order that ends so'
complete -c scoop -n '__scoop_is search' -l trace -a 'all print' -d 'Tells each turn of the found order that concerns others, or only what is printed, on standard error'
complete -c scoop -n '__scoop_is search' -l trace-events -r -F -d 'Writes the turns to this file in the Trace Event format, for Perfetto or Chrome\'s viewer'
complete -c scoop -n '__scoop_is search' -l timeline -r -F -d 'Draws the turns to this file, a page that a browser shows'
complete -c scoop -n '__scoop_is search' -l explain -d 'Shows where a refusal stands, or says who waits for whom, why one fails or why the search gave up, on standard error; the default where that is a terminal'
complete -c scoop -n '__scoop_is search' -l no-explain -d 'Leaves that out'
complete -c scoop -n '__scoop_is search' -l format -x -a 'text json' -d 'How the answer is written: as lines, or as one object of JSON'
complete -c scoop -n '__scoop_is search' -l root -x -d 'The root class and its creation procedure'
complete -c scoop -n '__scoop_is search' -l help -d 'Print help (see a summary with \'-h\')'
complete -c scoop -n '__scoop_gives search' -k -a '(__fish_complete_suffix .e)'
complete -c scoop -n '__scoop_is test' -l root-class -x -d 'The class whose tests are run, in place of all classes'
complete -c scoop -n '__scoop_is test' -l workers -x -d 'How many threads play the handlers, 1 to 8'
complete -c scoop -n '__scoop_is test' -l turns -x -d 'The most turns that are played, 1 to 10000000'
complete -c scoop -n '__scoop_is test' -l search -d 'Plays each test in every order of turns'
complete -c scoop -n '__scoop_is test' -l states -x -d 'The most states that are kept, 1 to 10000000'
complete -c scoop -n '__scoop_is test' -l memory -x -d 'The most memory that states take, in MB, 1 to 1000000'
complete -c scoop -n '__scoop_is test' -l record -x -a '(__fish_complete_directories)' -d 'Writes a record of each test that fails to FOLDER/CLASS.TEST.record, for `scoop replay`'
complete -c scoop -n '__scoop_is test' -l explain -d 'Shows where a refusal stands, or says why a test fails; the default'
complete -c scoop -n '__scoop_is test' -l no-explain -d 'Leaves that out'
complete -c scoop -n '__scoop_is test' -l format -x -a 'text json tap junit' -d 'How the results are written: as lines, as one object of JSON, as TAP, or as XML of JUnit'
complete -c scoop -n '__scoop_is test' -l help -d 'Print help (see a summary with \'-h\')'
complete -c scoop -n '__scoop_gives test' -k -a '(__fish_complete_suffix .e)'
complete -c scoop -n '__scoop_is print' -l help -d 'Print help (see a summary with \'-h\')'
complete -c scoop -n '__scoop_gives print' -k -a '(__fish_complete_suffix .e)'
complete -c scoop -n '__scoop_is format' -l write -d 'Writes each file in place, whole or not at all, and nothing to standard output'
complete -c scoop -n '__scoop_is format' -l check -d 'Names the files that would change, and writes none'
complete -c scoop -n '__scoop_is format' -l help -d 'Print help (see a summary with \'-h\')'
complete -c scoop -n '__scoop_gives format' -k -a '(__fish_complete_suffix .e)'
complete -c scoop -n '__scoop_is explain' -l help -d 'Print help (see a summary with \'-h\')'
complete -c scoop -n '__scoop_gives explain' -k -a '(__scoop_codes)'
complete -c scoop -n '__scoop_is lsp' -l help -d 'Print help (see a summary with \'-h\')'
complete -c scoop -n '__scoop_is help' -a 'check run replay search test print format explain lsp'
# end of what `scoop --help` says
