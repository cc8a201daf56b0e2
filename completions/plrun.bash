# Completes the words of plrun in bash.

# The codes and the names of all faults, and the word for all.
_plrun_faults='X1 X2 X3 X4 X5 X6 X7 X8 X9 X10 X11 X12 A1 A2 A3 A4 A5 A6 A7 A8 A9 P1 P2 P3 P4 P5 P6 P7 P8 P9 P10 P11 P12 D1 D2 D3 D4 O1 O2 O3 F1 F2 F3 F4 S1 UnclosedQuote Expansion UnsupportedOperator RedirectWithoutWord EmptyCommand Assignment NoForeground OneAfterAnother NulByte TooLong RedirectedTwice NoMemory UnknownUtility UnknownOption MissingArgument BadNumber BadList BadSet ExclusiveOptions BadOperands FifoTwice ManyWriters ManyReaders NoReader NoWriter Cycle OutputTwice ReadAndWritten LastOutputIsFifo AsyncToStdout TooMany NotOnePipeline NeedsWholeInput NotWritten InputNotOpened OutputNotOpened ReadFault WriteFault CountTooLarge stalled all'

# The options that there are.
_plrun_options='-c --workers --capacity --max-capacity --bytes --block --turns --strict --quiet-pipe --atomic --progress --stats --stats-to --hints --cd --plan --dot --shards --check --explain --version -V --help'

# Names of files that begin with a word.
_plrun_files() {
    compopt -o filenames 2> /dev/null
    mapfile -t COMPREPLY < <(compgen -f -- "$1")
}

# Names of folders that begin with a word.
_plrun_folders() {
    compopt -o filenames 2> /dev/null
    mapfile -t COMPREPLY < <(compgen -d -- "$1")
}

# Whether `--` comes before the word that is completed: then all that follow are operands.
_plrun_only_operands() {
    local k
    for ((k = 1; k < COMP_CWORD; k++)); do
        [ "${COMP_WORDS[k]}" != -- ] || return 0
    done
    return 1
}

_plrun() {
    local word=${COMP_WORDS[COMP_CWORD]} before=${COMP_WORDS[COMP_CWORD - 1]} values
    COMPREPLY=()
    # bash parts a word at `=`.
    if [ "$word" = = ]; then
        word=''
    elif [ "$before" = = ]; then
        before=${COMP_WORDS[COMP_CWORD - 2]}
    elif [[ $before == --@(progress|hints|plan|shards|stats|atomic|strict) ]]; then
        # What follows it in another word is not its value.
        before=''
    fi
    _plrun_only_operands && _plrun_files "$word" && return
    # Of each range the least number, the one that holds where none is given, the greatest, and some between. For the bytes the least
    # is the block that holds if none is given. For max-capacity it is the capacity that holds if none is given.
    case $before in
    -c) return ;;
    --workers) values='1 2 4 8 16' ;;
    --capacity) values='1 4 16 256 4096' ;;
    --max-capacity) values='16 64 256 1024 4096' ;;
    --bytes) values='4096 64K 1M 16M 256M' ;;
    --block) values='1 512 4096 64K' ;;
    --turns) values='1 32 1024 1000000' ;;
    --progress) values='terminal always' ;;
    --hints) values='terminal always line never' ;;
    --plan) values='lines full json' ;;
    --shards) values='lines map combine json' ;;
    --stats) values='text json' ;;
    --atomic) values='renamed synced' ;;
    --strict) values='always never' ;;
    --explain) values=$_plrun_faults ;;
    --stats-to) _plrun_files "$word" && return ;;
    --cd) _plrun_folders "$word" && return ;;
    *)
        case $word in
        -*) values=$_plrun_options ;;
        *) _plrun_files "$word" && return ;;
        esac
        ;;
    esac
    mapfile -t COMPREPLY < <(compgen -W "$values" -- "$word")
}

complete -F _plrun plrun
