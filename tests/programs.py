"""Which programs the scripts of this folder run."""
import os, pathlib

top = pathlib.Path(__file__).resolve().parent.parent


def programs(op2=None, tools=None):
    """The paths of `op2` and `op2-tools`: the words that are given, else what OP2 and OP2_TOOLS of the environment name, else the scripts of the repository."""
    found = (op2 or os.environ.get("OP2") or top / "op2", tools or os.environ.get("OP2_TOOLS") or top / "op2-tools")
    # Not resolved: a link is called by its own name.
    return tuple(pathlib.Path(path).absolute() for path in found)
