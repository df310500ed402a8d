# Times loops of a program beside plain C: seconds of the processor, the least of alternating runs, and machine instructions by valgrind.
import os, resource, shutil, subprocess

def spent(words):
    used = resource.getrusage(resource.RUSAGE_CHILDREN)
    status = subprocess.call(words, stdout=subprocess.DEVNULL, stderr=subprocess.DEVNULL)
    now = resource.getrusage(resource.RUSAGE_CHILDREN)
    return now.ru_utime + now.ru_stime - used.ru_utime - used.ru_stime, status

def least(calls, times=5):
    """The least seconds of each call, of runs that take turns."""
    best = [float("inf")] * len(calls)
    for _ in range(times):
        for i, words in enumerate(calls):
            best[i] = min(best[i], spent(words)[0])
    return best

def instructions(words):
    """Machine instructions of a call; none where valgrind isn't there."""
    if not shutil.which("valgrind"):
        return None
    told = subprocess.run(["valgrind", "--tool=callgrind", "--callgrind-out-file=/dev/null", *words], capture_output=True, text=True).stderr
    return next((int(line.split(":")[1].replace(",", "")) for line in told.splitlines() if "refs:" in line), None)

def write_mesh(name, entries):
    with open(name, "w") as f:
        f.write("op2mesh 2\n")
        for key, value in entries:
            if isinstance(value, int):
                f.write(f"int {key} {value}\n")
            else:
                f.write(f"ints {key} {len(value)}\n" + (" ".join(map(str, value)) + "\n" if value else ""))
        f.write("done\n")

def compiled(work, name, source):
    """Plain C, compiled by gcc -O2; none where gcc isn't there."""
    if not shutil.which("gcc"):
        return None
    path = os.path.join(work, name)
    with open(path + ".c", "w") as f:
        f.write(source)
    subprocess.check_call(["gcc", "-O2", "-fwrapv", "-o", path, path + ".c"])
    return path

def plain(words, times=5):
    """What a C program prints, nanoseconds of one element: the least of so many runs."""
    return min(float(subprocess.run(words, capture_output=True, text=True, check=True).stdout) for _ in range(times))
