#compdef plrun
# Completes the words of plrun in zsh.

# The options that there are.
_arguments -s -S \
    '(-h --help SCRIPT)-c[the text of the script]:text of the script: ' \
    '--workers[how many threads run the commands at most]:number, 1 to 16 (4):(1 2 4 8 16)' \
    '--capacity[how many pieces a pipe holds at first]:number, 1 to 4096 (16):(1 4 16 256 4096)' \
    '--max-capacity[how many pieces a pipe may grow to hold]:number, from the capacity to 4096 (4096):(16 64 256 1024 4096)' \
    '--bytes[how many bytes a pipe holds]:number, from the block to 268435456 (268435456):(4096 64K 1M 16M 256M)' \
    '--block[how many bytes a piece and a read have]:number, 1 to 65536 (4096) at first:(1 512 4096 64K)' \
    '--turns[how many turns a thread takes in a phase at most]:number, 1 to 1000000 (1000000):(1 32 1024 1000000)' \
    '--progress=-[show how far the run is, on a terminal or always]::when:(terminal always)' \
    '--stats=-[say after the run how long each command worked, and what each pipe moved]::form:(text json)' \
    '--stats-to[write what --stats says to this file]:file:_files' \
    '--hints=-[say after a fault where it is and what to do]::when:(terminal always line never)' \
    '--cd[take all names as those of files below this folder]:folder:_files -/' \
    '--strict=-[refuse the run if any operand cannot be opened]::when:(always never)' \
    '--quiet-pipe[end without a line if the reader of the output has ended]' \
    '--atomic=-[give outputs their new content only if the run finished]::how:(renamed synced)' \
    '(--dot --shards)--plan=-[print the plan of the script and run nothing]::form:(lines full json)' \
    '--check[look whether the files can be opened and run nothing]' \
    '(--plan --shards)--dot[print the plan as a digraph of Graphviz and run nothing]' \
    '(--plan --dot)--shards=-[print the two scripts that run the script over an input in parts]::form:(lines map combine json)' \
    '(- *)--explain[say what the code or the name of a fault means, and what to do]::code or name, as A5:(X1 X2 X3 X4 X5 X6 X7 X8 X9 X10 X11 X12 A1 A2 A3 A4 A5 A6 A7 A8 A9 P1 P2 P3 P4 P5 P6 P7 P8 P9 P10 P11 P12 D1 D2 D3 D4 O1 O2 O3 F1 F2 F3 F4 S1 UnclosedQuote Expansion UnsupportedOperator RedirectWithoutWord EmptyCommand Assignment NoForeground OneAfterAnother NulByte TooLong RedirectedTwice NoMemory UnknownUtility UnknownOption MissingArgument BadNumber BadList BadSet ExclusiveOptions BadOperands FifoTwice ManyWriters ManyReaders NoReader NoWriter Cycle OutputTwice ReadAndWritten LastOutputIsFifo AsyncToStdout TooMany NotOnePipeline NeedsWholeInput NotWritten InputNotOpened OutputNotOpened ReadFault WriteFault CountTooLarge stalled all)' \
    '(- *)'{-V,--version}'[print the version and the logic that it is proved in]' \
    '(- *)'{-h,--help}'[print a short help]' \
    '(-c)1:file that holds the script:_files'
