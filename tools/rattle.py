"""Calls `rattle`, the compiler behind rt, where rt has no command for what is wanted: over the libraries that `rt ci` or `rt check` left in crates/*/out."""
import os
import re
import shutil
import subprocess
import sys

# The parts of a crate that a check reads.
PARTS = ("src", "specs", "proofs")


def kit():
    """The toolchain's folder, in which rt lies."""
    rt = shutil.which("rt")
    if not rt:
        sys.exit("rt, the Rattle toolchain, is not on the PATH")
    return os.path.dirname(os.path.dirname(os.path.realpath(rt)))


class Crates:
    """The lines of a repository's crates.txt: `name: dep dep`, and `name staticlib: dep dep`."""

    def __init__(self, root):
        self.root, self.deps, self.static = os.path.abspath(root), {}, set()
        with open(f"{root}/crates.txt", encoding="utf-8") as lines:
            for line in lines:
                found = re.match(r"(\w+)( staticlib)?\s*:(.*)", line.partition("#")[0])
                if found:
                    self.deps[found.group(1)] = found.group(3).split()
                    self.static |= {found.group(1)} if found.group(2) else set()

    def below(self, name):
        """The repository's crates that a crate is built on, each after its own."""
        found = []
        for dep in self.deps[name]:
            if dep in self.deps:
                found += [it for it in [*self.below(dep), dep] if it not in found]
        return found

    def rlib(self, name):
        return f"{self.root}/crates/{name}/out/rlib/{name}.rlib"

    def is_built(self, name):
        """Whether every library below a crate is there."""
        return all(os.path.exists(f"{self.rlib(it)}/format") for it in self.below(name))

    def words(self, verb, name):
        """A command for a crate, to be run in a folder with its src, specs and proofs."""
        at = kit()
        root_file = "src/main.rt" if os.path.exists(f"{self.root}/crates/{name}/src/main.rt") else "src/lib.rt"
        words = [f"{at}/bin/rattle", verb, "--crate-name", name, root_file]
        for library in ["std", *[it for it in self.deps[name] if it not in self.deps]]:
            words += ["--extern", f"{library}={at}/rlibs/{library}.rlib"]
        words += ["-L", f"dependency={at}/rlibs"]
        for dep in self.deps[name]:
            if dep in self.deps:
                words += ["--extern", f"{dep}={self.rlib(dep)}"]
        for dep in self.below(name):
            words += ["-L", f"dependency={os.path.dirname(self.rlib(dep))}"]
        words += ["--antt-project", f"{at}/rattle/logic/antt-project.json", "--logic-built", f"{at}/logic_built", "--links", f"{name}="]
        return words + (["--crate-type", "staticlib"] if name in self.static else [])


def build(root, name):
    """Builds a static library over the libraries that `rt ci` has just left, or says why not: `rt lib` would prove each of them once more, since what `rt ci` leaves
    of a library is for itself alone, and has no stamp by which `rt lib` knows it."""
    crates = Crates(root)
    if not crates.is_built(name):
        sys.exit(f"the libraries below {name} are not built")
    if any(os.path.exists(f"{os.path.dirname(crates.rlib(it))}/stamp") for it in crates.below(name)):
        sys.exit(f"the libraries below {name} are those of rt check")
    words = [*crates.words("build", name), "--jobs", "2", "--toolchain", f"{kit()}/toolchain", "--backend", "llvm", "-o", f"out/lib{name}.a"]
    os.makedirs(f"{crates.root}/crates/{name}/out", exist_ok=True)
    return subprocess.run(words, cwd=f"{crates.root}/crates/{name}", stdin=subprocess.DEVNULL).returncode


if __name__ == "__main__":
    if len(sys.argv) != 3 or sys.argv[1] != "build":
        sys.exit("usage: rattle.py build NAME")
    sys.exit(build(os.path.join(os.path.dirname(os.path.abspath(__file__)), ".."), sys.argv[2]))
