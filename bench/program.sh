# Read by the scripts here: sets `op2`, the program that they time. OP2 names it; else it is the proved one, which ./prove makes first
# where there is none of the code as it stands.
op2=${OP2-}
if [ -z "$op2" ]; then
    OP2_BUILD=proved "$here/op2" --version >/dev/null || exit 1
    op2=$here/build/proved/op2
fi
