# Ordered loops whose kernel reads constants: instructions an element of a further loop, by the cells of the constants. See constants.sh.
import sys
from beside import instructions, write_mesh

op2, work, count = sys.argv[1], sys.argv[2], int(sys.argv[3])

def source(arrays, loops):
    """A program with constants of so many arrays of 1,024 cells, the most that one has."""
    tables = "".join(f"int table{k}[1024];\n" for k in range(arrays))
    declared = "".join(f'  op_decl_const(1024, "int", table{k});\n' for k in range(arrays))
    read = " + table0[*a]" if arrays else ""
    loop = '  op_par_loop(go, "go", edges, op_arg_dat(q, 0, pe, 1, "int", OP_READ), op_arg_dat(q, 1, pe, 1, "int", OP_RW));\n'
    return ("extern int nnode;\nextern int nedge;\nextern int edge[];\nextern int q0[];\n" + tables
            + f"void go(const int *a, int *b) {{ *b = (*b + *a{read}) % 1000; }}\n"
            + "int main(int argc, char **argv) {\n" + declared
            + '  op_set nodes = op_decl_set(nnode, "nodes");\n  op_set edges = op_decl_set(nedge, "edges");\n'
            + '  op_map pe = op_decl_map(edges, nodes, 2, edge, "pe");\n  op_dat q = op_decl_dat(nodes, 1, "int", q0, "q");\n'
            + loop * loops + "  op_exit();\n}\n")

ends = [v for i in range(count) for v in (i, (i * 7 + 1) % count)]
write_mesh(work + "/m", [("nnode", count), ("nedge", count), ("edge", ends), ("q0", [i % 1000 for i in range(count)])])
for arrays in 0, 8, 16:
    counted = []
    for loops in (1, 2):
        with open(f"{work}/s{loops}.c", "w") as f:
            f.write(source(arrays, loops))
        counted.append(instructions([op2, "run", f"{work}/s{loops}.c", work + "/m"]))
    print(f"{arrays * 1024:,} cells of constants: {(counted[1] - counted[0]) / count:.0f} instructions an element")
