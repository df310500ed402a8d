#compdef op2
# Made by tools/manual of the words of `op2 --help`: a completion for zsh. A folder of fpath has it as _op2.
local curcontext=$curcontext state line
typeset -A opt_args
local -a jobs options
jobs=(
    'run:runs the OP2 program in the file INPUT over the mesh in the file MESH, and writes what it prints'
    'sample:as run, with a program of fluxes on a grid of INPUT times INPUT cells, which it makes itself'
    'state:as run, but only the items before that of --at run, and then the state before it is written'
    'check:as run, but the program is planned and not run, and the sizes of the plan are written'
    'plan:as check, and the whole plan is written'
    'schedule:as check, and the schedule is written\: the steps of the plan in their order, one a line'
    'convert:writes the mesh in the file INPUT again, in the version that --form names'
    'translate:writes the source in the file INPUT with each loop call a call of its own stub, and behind it a table of the stubs'
    'restore:the way back\: each call of a stub in the file INPUT is written as a loop call'
)
options=(
    '(- *)'{-h,--help}'[writes this text]'
    '(- *)'{-V,--version}'[writes the version]'
)
case ${words[2]} in
    run|sample|state|check|plan|schedule)
        options+=(
            '--ranks=[how many ranks there are, from 1 to 64]:N: '
            '--parts=[who owns which element]:RULE:{compadd -S "" - block bisect\: grow\:}'
            '--partition=[in place of --parts\: who owns which element, as the file F says]:F:_files'
            '--renumber=[new numbers by Cuthill and McKee over the map MAP]:MAP: '
            '--block=[how many places a block has, from 1 to 65536]:N: '
            '--plan=[in place of --block\: blocks and colours as in the plan of the file F]:F:_files'
            '--schedule=[the steps in the order of the file F]:F:_files'
            '--seed=[in place of --schedule\: the steps in an order drawn from N, from 0 to 2^64 - 1]:N: '
            '--workers=[how many threads run the elements, from 1 to 64]:N: '
            '--at=[for state, where it must be given\: the item before which the run stops, from 0 to 4294967295]:K: '
            '--from=[for run and schedule\: the items from that on which the state in the file F tells, with its values]:F:_files'
            '--chain[for run, sample and check\: without a plan, with one exchange for each chain of loops]'
            '--dump[for run and sample\: where the run has no fault, what each rank holds at its end is written too]'
        )
        ;|
    convert)
        options+=(
            '--form=[the version of the mesh format, 1 or 2 (runs of equal values)]:FORM: '
        )
        ;|
esac
_arguments -C : $options '1: :->job' '*: :_files' && return 0
[[ $state = job ]] && _describe -t jobs job jobs
