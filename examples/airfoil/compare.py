"""Runs naca.c, in integers, and naca_double.c, each as a program of the C compiler `cc` over the same mesh, and prints how far their flows are apart: of each
component of q the largest difference over all cells, and the mean. Ends with 1 where one is above 0.02 or 0.002.

Usage: compare.py [ITERATIONS]     (1000 where none are given)"""
import pathlib
import subprocess
import sys
import tempfile

HERE = pathlib.Path(__file__).resolve().parent
COMPONENTS = ("density", "momentum along x", "momentum along y", "energy")
LARGEST, MEAN = 0.02, 0.002


def found(*names):
    """A file that a clone of the repository has by one of these names, and the package by the other."""
    return next(folder / name for folder in HERE.parents for name in names if (folder / name).exists())


def flow(program, unit):
    """What a program prints of q, a row for each cell."""
    lines = subprocess.run([program], capture_output=True, text=True, check=True).stdout.partition("q.txt:")[2].splitlines()[1:]
    return [[float(value) / unit for value in line.split()] for line in lines]


def run(iterations, folder):
    """Builds both programs over a mesh that asks for so many iterations, and gives what both print."""
    mesh_c = found("tools/mesh_c", "share/op2/mesh_c")
    header = found("include/op2_seq.h")
    with open(folder / "naca.mesh", "w") as mesh:
        subprocess.run([sys.executable, HERE / "naca_mesh.py", iterations], stdout=mesh, check=True)
    with open(folder / "mesh.c", "w") as source:
        subprocess.run([mesh_c, folder / "naca.mesh"], stdout=source, check=True)
    cc = ["cc", "-std=c11", "-w", "-O2", folder / "mesh.c"]
    subprocess.run([*cc, "-fwrapv", "-include", header, HERE / "naca.c", "-o", folder / "integers"], check=True)
    subprocess.run([*cc, HERE / "naca_double.c", "-lm", "-o", folder / "doubles"], check=True)
    return flow(folder / "integers", 65536), flow(folder / "doubles", 1)


def main():
    iterations = sys.argv[1] if len(sys.argv) > 1 else "1000"
    with tempfile.TemporaryDirectory() as name:
        integers, doubles = run(iterations, pathlib.Path(name))
    print(f"{len(doubles)} cells, {iterations} iterations")
    print(f"{'':20} largest    mean")
    bad = len(integers) != len(doubles)
    for at, component in enumerate(COMPONENTS):
        apart = [abs(one[at] - other[at]) for one, other in zip(integers, doubles)]
        largest, mean = max(apart), sum(apart) / len(apart)
        bad = bad or not (largest <= LARGEST and mean <= MEAN)
        print(f"{component:20} {largest:.4f}  {mean:.5f}")
    return bad


if __name__ == "__main__":
    sys.exit(main())
