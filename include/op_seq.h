// The name by which OP2's own sources include its header: docs/COMPILERS.md.
#include "op2_seq.h"
