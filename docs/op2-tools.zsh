#compdef op2-tools
# Made by tools/manual of the words of `op2-tools --help`: a completion for zsh. A folder of fpath has it as _op2-tools.
local curcontext=$curcontext state line
typeset -A opt_args
local -a jobs options
jobs=(
    'pick:writes what the N-th dat that the program prints with FILE as its file says, out of the output of a run in the file OUTPUT'
    'graph:writes the graph of neighbours by the map MAP in METIS'\''s format\: a line for each element of the set to which it leads'
    'owners:writes who owns which element on the ranks of a plan, as the text of a partition'
    'stat:writes what a plan costs\: of each loop the site and the class, its runs, exchanges, messages and cells, the elements and how they are spread, and its blocks and colours'
    'draw:writes a picture of a plane mesh as an SVG\: each cell with the colour of its owner'
    'vtk:writes the mesh for VTK, as ParaView reads it, with a number on each cell'
    'from-gmsh:writes the mesh text of the mesh of Gmsh in FILE, version 2.2 or 4.1, ASCII'
    'explain:writes what a call of op2 with these words answers, and what it means'
)
options=(
    '(- *)'{-h,--help}'[writes this text]'
    '(- *)'{-V,--version}'[writes the version]'
)
case ${words[2]} in
    draw|vtk)
        options+=(
            '--coords=[the dat that has the coordinates of the nodes, two or three for each]:DAT: '
            '--cells=[the map that leads from each cell to its nodes]:MAP: '
            '--halos=[shows what rank R has of the cells in place of their owners]:R: '
            '--colours=[shows the block colours of the loop with number S in place of the owners]:S: '
            '--output=[of vtk\: with what a run, whose output FILE holds, printed last of each dat on the cells and the nodes]:FILE:_files'
        )
        ;|
    owners)
        options+=(
            '--metis=[the file F has the rank of each element of SET, a line for each, as METIS writes]:F:_files'
            '--set=[the file F has the rank of each element of SET, a line for each, as METIS writes]:SET: '
        )
        ;|
    stat)
        options+=(
            '--plain[for scripts\: a line for each loop, with no heads and no legend]'
        )
        ;|
    owners|stat|draw|vtk)
        options+=(
            '--ranks=[how many ranks there are, from 1 to 64]:N: '
            '--parts=[who owns which element]:RULE:{compadd -S "" - block bisect\: grow\:}'
            '--partition=[in place of --parts\: who owns which element, as the file F says]:F:_files'
            '--renumber=[new numbers by Cuthill and McKee over the map MAP]:MAP: '
            '--block=[how many places a block has, from 1 to 65536]:N: '
            '--plan=[in place of --block\: blocks and colours as in the plan of the file F]:F:_files'
        )
        ;|
    from-gmsh)
        options+=(
            '--scale=[from 1 to 4294967295]:S: '
            '--dim=[2 for a plane mesh, 3 for one of space]:D: '
            '--source[writes a program that declares all of the mesh and prints sums, in place of the mesh text]'
        )
        ;|
esac
_arguments -C : $options '1: :->job' '*: :_files' && return 0
[[ $state = job ]] && _describe -t jobs job jobs
