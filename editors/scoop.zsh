#compdef scoop
# Completions of scoop for zsh: this file is named _scoop in a folder of $fpath.

# Completes a code, with its name.
_scoop_codes() {
    local codes=(${${(f)"$(_call_program codes timeout 2 scoop explain 2>/dev/null)"}/ /:})
    _describe code codes
}

# `.ci/commands --write PROGRAM` writes these lines.
# what `scoop --help` says
_scoop_commands() {
    local commands=(
        'check:Says whether a system is well formed'
        'run:Runs a system, and reports what became of each handler'
        'replay:Plays the turns of a record, and reports what became of each handler'
        'search:Looks for an order of turns in which handlers are stuck, or one fails or refuses a request'
        'test:Runs the tests of a system, or plays them in every order of turns'
        'print:Writes the text of a system in its one canonical layout'
        'format:Writes a text in its layout, with its comments'
        'explain:Says what a code stands for, and why'
        'lsp:Answers an editor, by the language server protocol'
        'help:Print this message or the help of the given subcommand(s)'
    )
    _describe command commands
}

_scoop_words() {
    case $words[1] in
    check)
        _arguments '--all[Lists each place at which a rule is broken, and warns]' \
            '--explain[Shows where a refusal stands, on standard error; the default where that is a terminal]' \
            '--no-explain[Leaves that out]' \
            '--format=[How the answer is written: as lines, or as one object of JSON; with `--all` as one array]:FORMAT:(text json)' \
            '--root=[The root class and its creation procedure]:CLASS.PROCEDURE:' \
            '--help[Print help (see a summary with '\''-h'\'')]' \
            '*:FILE:_files -g "*.e"'
        ;;
    run)
        _arguments '--workers=[How many threads play the handlers, 1 to 8]:N:' \
            '--turns=[The most turns that are played, 1 to 10000000]:N:' \
            '--output-limit=[Ends the run once all that is printed has more bytes than this, 0 to 1000000000000]:BYTES:' \
            '--seed=[Picks the handler of each turn at random, by this seed, 0 to 1000000000000]:N:' \
            '--times=[Plays at most this many runs, by one seed after the other, and lists their reports, 1 to 1000000000]:K:' \
            '--until=[Ends with the first run that shows this, and reports it; `differs`: another report than the first]:WHAT:(fails stuck refused differs)' \
            '--record=[Writes the record of the run to this file, for `scoop replay`]:PATH:_files' \
            '--audit[Plays the record by one thread, and says whether that ends in the same]' \
            '--trace=-[Tells each turn that concerns others as it is made, or only what is printed, on standard error]::WHAT:(all print)' \
            '--stats[Says in numbers what each handler did: turns, requests, waits and objects]' \
            '--trace-events=[Writes the turns to this file in the Trace Event format, for Perfetto or Chrome'\''s viewer]:PATH:_files' \
            '--timeline=[Draws the turns to this file, a page that a browser shows]:PATH:_files' \
            '--explain[Shows where a refusal stands, or says why handlers failed or wait, on standard error; the default where that is a terminal]' \
            '--no-explain[Leaves that out]' \
            '--format=[How the answer is written: as lines, or as one object of JSON]:FORMAT:(text json)' \
            '--root=[The root class and its creation procedure]:CLASS.PROCEDURE:' \
            '--help[Print help (see a summary with '\''-h'\'')]' \
            '*:FILE:_files -g "*.e"'
        ;;
    replay)
        _arguments '--trace=-[Tells each turn that concerns others as it is made, or only what is printed, on standard error]::WHAT:(all print)' \
            '--stats[Says in numbers what each handler did: turns, requests, waits and objects]' \
            '--trace-events=[Writes the turns to this file in the Trace Event format, for Perfetto or Chrome'\''s viewer]:PATH:_files' \
            '--timeline=[Draws the turns to this file, a page that a browser shows]:PATH:_files' \
            '--explain[Shows where a refusal stands, or says why handlers failed or wait, on standard error; the default where that is a terminal]' \
            '--no-explain[Leaves that out]' \
            '--format=[How the answer is written: as lines, or as one object of JSON]:FORMAT:(text json)' \
            '--root=[The root class and its creation procedure]:CLASS.PROCEDURE:' \
            '--help[Print help (see a summary with '\''-h'\'')]' \
            '1:RECORD:_files' \
            '*:FILE:_files -g "*.e"'
        ;;
    search)
        _arguments '--for=[What ends the search]:WHAT:(stuck fails refused any)' \
            '--states=[The most states that are kept, 1 to 10000000]:N:' \
            '--memory=[The most memory that states take, in MB, 1 to 1000000]:MB:' \
            '--record=[Writes the record of the order that is found to this file]:PATH:_files' \
            '--outcomes[Lists each outcome: the report of an order that ends so]' \
            '--trace=-[Tells each turn of the found order that concerns others, or only what is printed, on standard error]::WHAT:(all print)' \
            '--trace-events=[Writes the turns to this file in the Trace Event format, for Perfetto or Chrome'\''s viewer]:PATH:_files' \
            '--timeline=[Draws the turns to this file, a page that a browser shows]:PATH:_files' \
            '--explain[Shows where a refusal stands, or says who waits for whom, why one fails or why the search gave up, on standard error; the default where that is a terminal]' \
            '--no-explain[Leaves that out]' \
            '--format=[How the answer is written: as lines, or as one object of JSON]:FORMAT:(text json)' \
            '--root=[The root class and its creation procedure]:CLASS.PROCEDURE:' \
            '--help[Print help (see a summary with '\''-h'\'')]' \
            '*:FILE:_files -g "*.e"'
        ;;
    test)
        _arguments '--root-class=[The class whose tests are run, in place of all classes]:CLASS:' \
            '--workers=[How many threads play the handlers, 1 to 8]:N:' \
            '--turns=[The most turns that are played, 1 to 10000000]:N:' \
            '--search[Plays each test in every order of turns]' \
            '--states=[The most states that are kept, 1 to 10000000]:N:' \
            '--memory=[The most memory that states take, in MB, 1 to 1000000]:MB:' \
            '--record=[Writes a record of each test that fails to FOLDER/CLASS.TEST.record, for `scoop replay`]:FOLDER:_files -/' \
            '--explain[Shows where a refusal stands, or says why a test fails; the default]' \
            '--no-explain[Leaves that out]' \
            '--format=[How the results are written: as lines, as one object of JSON, as TAP, or as XML of JUnit]:FORMAT:(text json tap junit)' \
            '--help[Print help (see a summary with '\''-h'\'')]' \
            '*:FILE:_files -g "*.e"'
        ;;
    print)
        _arguments '--help[Print help (see a summary with '\''-h'\'')]' \
            '*:FILE:_files -g "*.e"'
        ;;
    format)
        _arguments '--write[Writes each file in place, whole or not at all, and nothing to standard output]' \
            '--check[Names the files that would change, and writes none]' \
            '--help[Print help (see a summary with '\''-h'\'')]' \
            '*:FILE:_files -g "*.e"'
        ;;
    explain)
        _arguments '--help[Print help (see a summary with '\''-h'\'')]' \
            '1:CODE:_scoop_codes'
        ;;
    lsp)
        _arguments '--help[Print help (see a summary with '\''-h'\'')]'
        ;;
    help)
        _arguments '1:COMMAND:_scoop_commands'
        ;;
    esac
}
# end of what `scoop --help` says

_scoop() {
    local curcontext=$curcontext state line
    _arguments -C \
        '(- *)'{-h,--help}'[Print help]' \
        '(- *)'{-V,--version}'[Print version]' \
        '1: :_scoop_commands' \
        '*:: :_scoop_words'
}

_scoop "$@"
