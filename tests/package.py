#!/usr/bin/env python3
"""Makes the package of both programs (tools/package) twice, and compares the bytes. Unpacks it into an empty folder: README's first example has to run there,
in a root that has the C library alone (by the PATH where that isn't allowed), and its whole example by the PATH. Looks at owners, modes, sums and what the
package needs, at man pages and completions as the programs that are there read them, and at what tools/package refuses. Ends with 1 where something differs.
Usage: tests/package.py [OP2 [TOOLS]]     (programs; else what OP2 and OP2_TOOLS name, else those of the repository)
"""
import gzip, hashlib, os, pathlib, pty, re, select, shlex, shutil, signal, subprocess, sys, tarfile, tempfile, time
from programs import programs, top

VERSION = re.search(r"^## (\d+\.\d+\.\d+), ", (top / "CHANGELOG.md").read_text(), re.M)[1]
TAR, DEB = f"op2-{VERSION}-x86_64-linux.tar.gz", f"op2_{VERSION}_amd64.deb"
PROGRAMS = {}  # by their paths in the package
faults = 0
told = set()


def holds(what, is_so, told=""):
    global faults
    if not is_so:
        faults += 1
        print(f"differs: {what}: {told}")


def left_out(what):
    if what not in told:
        told.add(what)
        print(f"left out: {what}")


def call(words, **more):
    return subprocess.run(words, **{"stdin": subprocess.DEVNULL, "capture_output": True, "text": True, "timeout": 300, "check": False, **more})


def elf(program):
    """The program itself; of a script of the repository the one that it runs, which is built where it is missing."""
    if program.read_bytes()[:2] != b"#!":
        return program
    return top / "build" / call([sys.executable, top / "tools/build", program.name], timeout=3600).stdout.strip() / program.name


def named_programs():
    return ["--op2", PROGRAMS["bin/op2"], "--tools", PROGRAMS["bin/op2-tools"]]


def make(folder, tree=top, named=True, umask="022", **environment):
    words = ["/bin/sh", "-c", f'umask {umask}; exec "$@"', "sh", sys.executable, tree / "tools/package", "--folder", folder]
    words += named_programs() if named else []
    return call(words, env={**os.environ, **environment})


def wanted_files(zsh):
    """The paths of all files of the package, those of the pages and the examples by git, where it is there."""
    listed = call(["git", "ls-files", "-co", "--exclude-standard", "README.md", "docs", "examples"], cwd=top).stdout.splitlines()
    found = {f"share/doc/op2/{it}" for it in listed if it.endswith(".md") or it.startswith("examples/")} - {"share/doc/op2/examples/check.sh"}
    found |= {f"share/doc/op2/{it}" for it in ("PACKAGE", "changelog.gz", "copyright")} | {"include/op2_seq.h", "include/op_seq.h", "share/op2/mesh_c", "share/op2/mesh_c.c"}
    for name in ("op2", "op2-tools"):
        found |= {f"bin/{name}", f"share/man/man1/{name}.1.gz", f"share/bash-completion/completions/{name}"}
        found |= {f"share/zsh/{zsh}/_{name}", f"share/fish/vendor_completions.d/{name}.fish"}
    return found if listed else None


def mode_of(path):
    return 0o755 if path in PROGRAMS or path == "share/op2/mesh_c" else 0o644


def look_at_files(what, found, zsh):
    """Looks at the paths, modes and owners of an archive, whose folders end with a slash."""
    wanted = wanted_files(zsh)
    files = {path for path, _, _ in found if not path.endswith("/")}
    if wanted is None:
        left_out("the list of files, without git")
    else:
        holds(f"files of {what}", files == wanted, sorted(files ^ wanted))
    for path, mode, owner in found:
        right = 0o755 if path.endswith("/") else mode_of(path)
        holds(f"mode and owner in {what} of {path}", (mode, owner) == (right, "root/root"), (oct(mode), owner))


def unpack_tarball(archive, root):
    with tarfile.open(archive) as tar:
        first = f"op2-{VERSION}"
        found = [(it.name[len(first) + 1 :] + ("/" if it.isdir() else ""), it.mode, f"{it.uname}/{it.gname}") for it in tar.getmembers()]
        holds("folder of the tarball", all((it.name + "/").startswith(first + "/") and it.uid == it.gid == 0 for it in tar.getmembers()))
        tar.extractall(root)
    look_at_files("the tarball", found, "site-functions")
    (root / first).rename(root / "usr")


def unpack_deb(archive, root):
    shown = call(["dpkg-deb", "-c", archive]).stdout.splitlines()
    lines = [re.fullmatch(r"(\S+) (\S+) +\d+ \S+ \S+ \./(.*)", line) for line in shown]
    bits = lambda text: sum(1 << at for at, sign in enumerate(reversed(text[1:])) if sign != "-")
    found = [(it[3].removeprefix("usr/") or "./", bits(it[1]), it[2]) for it in lines]
    look_at_files("the .deb", found, "vendor-completions")
    call(["dpkg-deb", "-x", archive, root])
    call(["dpkg-deb", "-e", archive, root / "control"])
    for line in (root / "control/md5sums").read_text().splitlines():
        total, path = line.split("  ")
        holds(f"sum of {path}", hashlib.md5((root / path).read_bytes()).hexdigest() == total)
    control = (root / "control/control").read_text()
    needs_c = any(libraries_of(it) for it in PROGRAMS.values())
    holds("what the .deb needs", needs_c == bool(re.search(r"^Depends: libc6 \(>= 2\.\d+\)$", control, re.M)), control)
    holds("what the .deb is", f"Package: op2\nVersion: {VERSION}\nArchitecture: amd64\n" in control, control)
    shutil.rmtree(root / "control")


def libraries_of(program):
    """The files that a program's loader takes, the loader among them."""
    said = call(["ldd", program])
    return re.findall(r"(/\S+) \(0x", said.stdout) if said.returncode == 0 else []


def commands_of(block):
    return re.findall(r"^\$ (.*)\n((?:(?!\$ ).*\n)*)", block, re.M)


def first_example():
    """README's first session as one writes it where the package is installed: each command with what it writes."""
    blocks = re.findall(r"^```\n(.*?)^```\n", (top / "README.md").read_text(), re.M | re.S)
    return [(command.replace("./op2", "op2"), wanted) for command, wanted in commands_of(next(it for it in blocks if it.startswith("$ ")))]


def run_in_root(root, words):
    """Runs a command in the folder of the pages of a root; None where that isn't allowed."""
    def enter():
        os.chroot(root)
        os.chdir("/usr/share/doc/op2")

    try:
        return call([f"/usr/bin/{words[0]}", *words[1:]], preexec_fn=enter, env={}).stdout
    except (subprocess.SubprocessError, PermissionError):
        return None


def try_first_example(root):
    alone = root.parent / f"{root.name} alone"
    shutil.copytree(root, alone)
    for library in {it for program in PROGRAMS.values() for it in libraries_of(program)}:
        (alone / library[1:]).parent.mkdir(parents=True, exist_ok=True)
        shutil.copy(library, alone / library[1:])
    for command, wanted in first_example():
        found = run_in_root(alone, shlex.split(command))
        if found is None:
            left_out("README's first example in a root of its own, which isn't allowed here")
            found = call(["sh", "-c", command], cwd=root / "usr/share/doc/op2", env={"PATH": f"{root}/usr/bin:/usr/bin:/bin"}).stdout
        holds(command, found == wanted, found)


def try_whole_example(root):
    """README's whole example, and the same source by a C compiler, with the header and the script of the package."""
    place = root.parent / f"{root.name} place"
    place.mkdir()
    page = (top / "README.md").read_text().split("## A whole example")[1]
    block = re.search(r"^```sh\n(.*?)^```\n", page, re.M | re.S)[1].replace("./op2", "op2")
    found = call(["sh", "-c", block], cwd=place, env={"PATH": f"{root}/usr/bin:/usr/bin:/bin"}).stdout
    wanted = first_example()[0][1]
    holds("README's whole example", found == wanted, found)
    if not shutil.which("cc"):
        left_out("the package's header, without cc")
        return
    block = f'"{root}/usr/share/op2/mesh_c" r.mesh >mesh.c && cc -w -fwrapv -I "{root}/usr/include" -include op2_seq.h r.c mesh.c -o r && ./r'
    done = call(["sh", "-c", block], cwd=place)
    holds("the package's header", done.stdout == wanted, done)


def try_manuals(root):
    for name in ("op2", "op2-tools"):
        page = root / f"usr/share/man/man1/{name}.1.gz"
        if shutil.which("man"):
            done = call(["man", "-l", page], env={**os.environ, "MANPAGER": "cat", "PAGER": "cat", "MANWIDTH": "80"})
        elif shutil.which("groff"):
            done = call(["groff", "-man", "-Tascii", "-P-cbou"], stdin=None, input=gzip.decompress(page.read_bytes()).decode())
        else:
            left_out("man pages, without man and groff")
            return
        lines = [re.sub(r".\x08", "", line).rstrip() for line in done.stdout.splitlines()]
        holds(f"the man page of {name}", {"NAME", "SYNOPSIS", "EXAMPLES", "SEE ALSO"} <= set(lines) and not done.stderr, done.stderr)


def zsh_completes(folder, line):
    """What zsh makes of a line and a tab; its completions are read from a folder."""
    number, terminal = pty.fork()
    if number == 0:
        os.execvpe("zsh", ["zsh", "-f", "-i"], {**os.environ, "TERM": "dumb"})

    def read(wanted, seconds):
        said, until = b"", time.monotonic() + seconds
        while wanted not in said and time.monotonic() < until:
            if select.select([terminal], [], [], 0.1)[0]:
                said += os.read(terminal, 65536)
        return said

    try:
        # The prompt stands in what is typed in two parts, so that its echo isn't taken for it.
        os.write(terminal, f"fpath=('{folder}' $fpath); autoload -U compinit; compinit -u -D; PS1='rea''dy> '\n".encode())
        read(b"ready> ", 60)
        os.write(terminal, line.encode() + b"\t")
        return read(b"\x07", 3).decode(errors="replace")
    finally:
        os.kill(number, signal.SIGKILL)
        os.waitpid(number, 0)
        os.close(terminal)


def try_completions(root):
    share = root / "usr/share"
    code = '. "$0"; COMP_WORDS=(op2 sc) COMP_CWORD=1; _op2; complete -p op2; echo "$COMPREPLY"'
    done = call(["bash", "--norc", "-c", code, share / "bash-completion/completions/op2"])
    holds("a completion by bash", done.stdout == "complete -F _op2 op2\nschedule\n", done)
    if shutil.which("fish"):
        words = ["fish", "-c", "source $argv[1]; complete -C 'op2 sc'", share / "fish/vendor_completions.d/op2.fish"]
        done = call(words, env={**os.environ, "HOME": str(root)})
        holds("a completion by fish", done.stdout.startswith("schedule\t"), done)
    else:
        left_out("completions by fish")
    if shutil.which("zsh"):
        folder = next(it for it in (share / "zsh").iterdir())
        for line, wanted in (("op2 sc", "op2 schedule "), ("op2 run --ra", "op2 run --ranks="), ("op2-tools fr", "op2-tools from-gmsh ")):
            found = zsh_completes(folder, line)
            holds(f"a completion of {line} by zsh", wanted in found, found)
    else:
        left_out("completions by zsh")


def try_package(folder):
    first, again = folder / "first", folder / "again"
    done = make(first)
    holds("a package", done.returncode == 0 and DEB in done.stdout + done.stderr + DEB * (shutil.which("dpkg-deb") is None), done)
    time.sleep(1.1)
    make(again, umask="077", TZ="UTC-11", LANG="C")
    names = sorted(os.listdir(first))
    holds("its files", names == ([TAR, DEB] if shutil.which("dpkg-deb") else [TAR]), names)
    for name in names:
        holds(f"{name}, made again", (first / name).read_bytes() == (again / name).read_bytes())
    roots = {"tar root": unpack_tarball, "deb root": unpack_deb}
    if not shutil.which("dpkg-deb"):
        left_out("the .deb, without dpkg-deb")
        del roots["deb root"]
    for name, unpack in roots.items():
        root = folder / name
        root.mkdir()
        unpack(first / (TAR if name == "tar root" else DEB), root)
        for path, program in PROGRAMS.items():
            holds(f"{path} of the {name}", (root / "usr" / path).read_bytes() == program.read_bytes())
        try_first_example(root)
        try_whole_example(root)
        try_manuals(root)
        try_completions(root)


def copied_tree(folder):
    """A tree like the repository, in which nothing is built."""
    tree = folder / "a tree"
    for name in ("tools", "docs", "examples", "include"):
        shutil.copytree(top / name, tree / name)
    for name in ("crates.txt", "CHANGELOG.md", "README.md", "LICENSE"):
        shutil.copy(top / name, tree / name)
    return tree


def try_proofs(tree, made):
    """Of what ./prove has made the package says that it is proved, of other programs that it isn't known."""
    about = "op2-%s/share/doc/op2/PACKAGE" % VERSION

    def says():
        with tarfile.open(made / TAR) as tar:
            return tar.extractfile(about).read().decode()

    holds("a package of programs that are named", make(made, tree).returncode == 0 and "does not know whether" in says(), says())
    (tree / "build/proved").mkdir(parents=True)
    code = 'import sys; sys.path.insert(0, "tools"); from repository import *\n' \
           'for n, c in PROGRAMS.items(): program_stamp(n, "proved").write(sums(read_crates(), [c], PARTS["proved"])[c], 0)'
    call([sys.executable, "-B", "-c", code], cwd=tree)
    for path, program in PROGRAMS.items():
        shutil.copy(program, tree / "build/proved" / pathlib.Path(path).name)
    done = make(made, tree, named=False)
    holds("a package of proved programs", done.returncode == 0 and "Each function of both programs is proved" in says(), (done, says()))


def try_refusals(folder):
    tree, made, bare = copied_tree(folder), folder / "made", folder / "bare"
    made.mkdir()
    bare.mkdir()
    done = make(made, tree, named=False)
    holds("no proved program", done.returncode == 1 and "there is no proved op2" in done.stderr and not os.listdir(made), done)
    done = call([sys.executable, tree / "tools/package", "--op2", "/bin/sh", "--folder", made])
    holds("another program", done.returncode == 1 and "can't be packed as op2" in done.stderr and not os.listdir(made), done)
    holds("a word that there isn't", call([sys.executable, tree / "tools/package", "--nonsense"]).returncode == 2)
    done = make(made, tree, PATH=str(bare))
    holds("no dpkg-deb", done.returncode == 0 and "dpkg-deb is missing" in done.stderr and os.listdir(made) == [TAR], done)
    (made / TAR).write_text("old\n")
    (bare / "dpkg-deb").write_text("#!/bin/sh\nexit 2\n")
    (bare / "dpkg-deb").chmod(0o755)
    done = make(made, tree, PATH=str(bare))
    holds("a dpkg-deb that fails", done.returncode == 1 and "dpkg-deb ended with 2" in done.stderr, done)
    holds("what it leaves", os.listdir(made) == [TAR] and (made / TAR).read_text() == "old\n", os.listdir(made))
    try_interrupt(tree, made, bare)
    try_proofs(tree, made)


def try_interrupt(tree, made, bare):
    (bare / "dpkg-deb").write_text(f'#!/bin/sh\n: >"{bare}/begun"\nexec /bin/sleep 60\n')
    words = [sys.executable, tree / "tools/package", "--folder", made, *named_programs()]
    pipes = {"stdout": subprocess.PIPE, "stderr": subprocess.PIPE, "text": True}
    asked = subprocess.Popen(words, env={**os.environ, "PATH": str(bare)}, start_new_session=True, **pipes)
    while asked.poll() is None and not (bare / "begun").exists():
        time.sleep(0.05)
    os.killpg(asked.pid, signal.SIGINT)
    said = asked.communicate(timeout=60)[1]
    holds("an interrupt", asked.returncode == 130 and "interrupted" in said and os.listdir(made) == [TAR], (said, os.listdir(made)))


for place, program in zip(("bin/op2", "bin/op2-tools"), programs(*sys.argv[1:])):
    PROGRAMS[place] = elf(program)
with tempfile.TemporaryDirectory(suffix=" with a space") as name:
    try_package(pathlib.Path(name))
    try_refusals(pathlib.Path(name))
print(f"{faults} differences")
sys.exit(faults > 0)
