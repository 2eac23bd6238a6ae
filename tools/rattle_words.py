#!/usr/bin/env python3
"""The words by which `rattle`, the prover below `rt`, checks or builds one crate over the libraries that stand proved in the folders out/ of the crates below it.

usage: rattle_words.py CRATE       proves and builds the libraries below the crate where that has to be done, and prints the words, a line each
       rattle_words.py 'NAME: ..'  the same of a library that crates.txt does not list, by the line that would stand there for it

What `rt ci` leaves in a clean checkout serves, and so does what `rt check` and `rt lib` keep. `rt` itself takes nothing of what `rt ci` leaves, and would prove every crate below once more.
"""
import os
import pathlib
import re
import subprocess
import sys

PARTS = ("src", "specs", "proofs")


def kit():
    """The folder of the toolchain."""
    return pathlib.Path(subprocess.run(["rt", "doc"], stdout=subprocess.PIPE, check=True, encoding="utf-8").stdout.strip()).parent


def top_above(folder):
    """The top of the repository, or none."""
    return next((place for place in (folder, *folder.parents) if (place / "crates.txt").exists()), None)


class Repository:
    def __init__(self, top):
        self.top, self.kit, self.needs, self.static = pathlib.Path(top).resolve(), kit(), {}, set()
        for line in (self.top / "crates.txt").read_text(encoding="utf-8").split("\n"):
            self.list(line)

    def list(self, line):
        """Takes in a line of crates.txt, and answers the name of its crate."""
        found = re.match(r"(\w+)( +staticlib)?\s*(?::(.*))?$", line.partition("#")[0].strip())
        if found:
            self.needs[found[1]] = (found[3] or "").split()
            self.static |= {found[1]} if found[2] else set()
        return found and found[1]

    def folder(self, crate):
        return self.top / "crates" / crate

    def is_program(self, crate):
        return (self.folder(crate) / "src" / "main.rt").exists()

    def is_library(self, crate):
        """Whether other crates can stand on it."""
        return not self.is_program(crate) and crate not in self.static

    def below(self, crate):
        """The repository's libraries below a crate, each after those that it stands on."""
        found = []
        for need in self.needs[crate]:
            if need in self.needs:
                found += [it for it in (*self.below(need), need) if it not in found]
        return found

    def files(self, crate):
        """The files that a verdict on the crate reads."""
        return [path for part in PARTS for path in sorted((self.folder(crate) / part).rglob("*")) if path.is_file()]

    # ---- the libraries

    def built(self, crate):
        return self.folder(crate) / "out" / "rlib" / f"{crate}.rlib"

    def stamp(self, crate):
        """What `rt` leaves beside a library that it built outside of `rt ci`; by it `rt` knows later whether anything has changed."""
        return self.built(crate).with_name("stamp")

    def is_built(self, crates):
        """Whether these libraries stand built as their sources are now: all of them by `rt ci`, or all by `rt` otherwise, since what one builds does not fit what the other does."""
        if not all(self.built(crate).exists() for crate in crates):
            return False
        stamped = {self.stamp(crate).exists() for crate in crates}
        when = {crate: (self.stamp(crate) if True in stamped else self.built(crate)).lstat().st_mtime for crate in crates} if len(stamped) == 1 else {}
        newest = {crate: max(path.stat().st_mtime for path in (self.top / "crates.txt", *self.files(crate))) for crate in when}
        return len(stamped) < 2 and all(when[crate] > newest[it] for crate in crates for it in (crate, *self.below(crate)))

    def build(self, crates):
        """Proves and builds the libraries among these crates and those below them where that has to be done, and says whether it went well; what `rt` says of one that is refused is printed."""
        libraries = list(dict.fromkeys(it for crate in crates for it in (*self.below(crate), crate) if self.is_library(it)))
        if self.is_built(libraries):
            return True
        for crate in libraries:
            done = subprocess.run(["rt", "lib"], cwd=self.folder(crate), stdin=subprocess.DEVNULL, stdout=subprocess.PIPE, stderr=subprocess.STDOUT)
            if done.returncode:
                sys.stderr.buffer.write(done.stdout)
                return False
            # where nothing has changed it builds nothing, and this is how the next look sees that
            self.stamp(crate).touch()
        return True

    # ---- the words

    def words(self, crate):
        """What the check of a crate is told, in the crate's folder or in a copy of it."""
        rlibs, of_kit = self.kit / "rlibs", ["std", *(it for it in self.needs[crate] if it not in self.needs)]
        words = ["--crate-name", crate, "src/main.rt" if self.is_program(crate) else "src/lib.rt"]
        words += [word for it in of_kit for word in ("--extern", f"{it}={rlibs / it}.rlib")]
        words += ["-L", f"dependency={rlibs}"]
        words += [word for it in self.needs[crate] if it in self.needs for word in ("--extern", f"{it}={self.built(it)}")]
        words += [word for it in self.below(crate) for word in ("-L", f"dependency={self.built(it).parent}")]
        words += ["--antt-project", f"{self.kit}/rattle/logic/antt-project.json", "--logic-built", f"{self.kit}/logic_built", "--links", f"{crate}="]
        return words + (["--crate-type", "staticlib"] if crate in self.static else [])

    def rattle(self):
        return str(self.kit / "bin" / "rattle")


def main():
    top = top_above(pathlib.Path.cwd())
    if len(sys.argv) != 2 or not top:
        sys.exit(__doc__)
    repository = Repository(top)
    crate = repository.list(sys.argv[1]) if ":" in sys.argv[1] else sys.argv[1]
    if crate not in repository.needs:
        sys.exit(f"rattle_words: crates.txt lists no crate {sys.argv[1]}")
    if not repository.build(repository.below(crate)):
        return 1
    print(*[repository.rattle(), *repository.words(crate)], sep="\n")
    return 0


if __name__ == "__main__":
    sys.exit(main())
