# Completions of scoop for bash: source this file.

# The words after a command, the values of an option or the name of its value, and what a command is given.
# `.ci/commands --write PROGRAM` writes these lines.
declare -gA _scoop_words=(
    # what `scoop --help` says
    [commands]='check run replay search test print format explain lsp help --help --version'
    [check given]='FILE...'
    [check]='--all --explain --no-explain --format --root --help'
    [check --format]='text json'
    [check --root]='CLASS.PROCEDURE'
    [run given]='FILE...'
    [run]='--workers --turns --output-limit --seed --times --until --record --audit --trace --trace=all --trace=print --stats --trace-events --timeline --explain --no-explain --format --root --help'
    [run --workers]='N'
    [run --turns]='N'
    [run --output-limit]='BYTES'
    [run --seed]='N'
    [run --times]='K'
    [run --until]='fails stuck refused differs'
    [run --record]='PATH'
    [run --trace=]='all print'
    [run --trace-events]='PATH'
    [run --timeline]='PATH'
    [run --format]='text json'
    [run --root]='CLASS.PROCEDURE'
    [replay given]='RECORD FILE...'
    [replay]='--trace --trace=all --trace=print --stats --trace-events --timeline --explain --no-explain --format --root --help'
    [replay --trace=]='all print'
    [replay --trace-events]='PATH'
    [replay --timeline]='PATH'
    [replay --format]='text json'
    [replay --root]='CLASS.PROCEDURE'
    [search given]='FILE...'
    [search]='--for --states --memory --record --outcomes --trace --trace=all --trace=print --trace-events --timeline --explain --no-explain --format --root --help'
    [search --for]='stuck fails refused any'
    [search --states]='N'
    [search --memory]='MB'
    [search --record]='PATH'
    [search --trace=]='all print'
    [search --trace-events]='PATH'
    [search --timeline]='PATH'
    [search --format]='text json'
    [search --root]='CLASS.PROCEDURE'
    [test given]='FILE...'
    [test]='--root-class --workers --turns --search --states --memory --record --explain --no-explain --format --help'
    [test --root-class]='CLASS'
    [test --workers]='N'
    [test --turns]='N'
    [test --states]='N'
    [test --memory]='MB'
    [test --record]='FOLDER'
    [test --format]='text json tap junit'
    [print given]='FILE...'
    [print]='--help'
    [format given]='FILE...'
    [format]='--write --check --help'
    [explain given]='[CODE]'
    [explain]='--help'
    [lsp given]=''
    [lsp]='--help'
    [help given]='check run replay search test print format explain lsp'
    [help]=''
    # end of what `scoop --help` says
)

# Completes a word by what a help calls it, or by these words.
_scoop_complete() {
    case $1 in
    *FILE*) mapfile -t COMPREPLY < <(compgen -f -X '!*.e' -- "$2"; compgen -d -- "$2") ;;
    PATH | RECORD) mapfile -t COMPREPLY < <(compgen -f -- "$2") ;;
    FOLDER) mapfile -t COMPREPLY < <(compgen -d -- "$2") ;;
    # (where the program would have to be built first, nobody waits for it)
    '[CODE]') mapfile -t COMPREPLY < <(compgen -W "$(timeout 2 "${COMP_WORDS[0]}" explain 2>/dev/null)" -- "$2") ;;
    [[:upper:]]*) ;;
    *) mapfile -t COMPREPLY < <(compgen -W "$1" -- "$2") ;;
    esac
}

_scoop() {
    local word=${COMP_WORDS[COMP_CWORD]} before=${COMP_WORDS[COMP_CWORD - 1]} command=${COMP_WORDS[1]} value given
    COMPREPLY=()
    if [ "$COMP_CWORD" = 1 ]; then
        _scoop_complete "${_scoop_words[commands]}" "$word"
        return
    fi
    # (bash takes `--trace=print` for three words)
    if [ "$word" = = ]; then
        word= before+==
    elif [ "$before" = = ]; then
        before=${COMP_WORDS[COMP_CWORD - 2]}=
    fi
    value=${_scoop_words[$command $before]-${_scoop_words[$command ${before%=}]-}}
    given=${_scoop_words[$command given]-FILE...}
    if [[ $before == --* && $value ]]; then
        _scoop_complete "$value" "$word"
    elif [[ $word == -* ]]; then
        _scoop_complete "${_scoop_words[$command]-}" "$word"
    elif [[ $given == 'RECORD '* ]]; then
        _scoop_complete RECORD "$word"
    else
        _scoop_complete "$given" "$word"
    fi
}
complete -o filenames -F _scoop scoop
