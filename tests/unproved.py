"""Compiles functions of Rattle to an archive without proving what they promise, in seconds, for tests of the machine code. The toolchain builds only what is
proved. But of a function that no call may reach everything is proved: so each gets one `requires`, which nothing meets, in place of its clauses, in a
repository that is thrown away. The code is the same, and so are the compiler and its flags. (It was used for the whole library too, `tests/bench --unproved`,
with a tool of older toolchains; today's have none.)"""
import os
import pathlib
import re
import subprocess
import sys
from concurrent.futures import ThreadPoolExecutor

UNMET = "    requires { zero ≡ suc zero }\n"
IMPORTS = "ghost use Rattle.std.specs.Prelude.{◌≡◌, zero, suc};\n"


def without_contracts(test, text):
    """A file in which every function has that `requires` alone. Each clause has to stand on a line of its own, as `rt fmt` lays out short ones."""
    bare = re.sub(r"^ghost use [^;]*;\n", "", text, flags=re.MULTILINE)
    bare = re.sub(r"^ +(?:requires|ensures)\b.*\}\n", "", bare, flags=re.MULTILINE)
    if re.search(r"\b(?:requires|ensures)\b", re.sub(r"//.*", "", bare)):
        sys.exit(f"{test}: a clause that is longer than a line has to be taken out by hand")
    bare = re.sub(r"^((?:pub )?(?:extern \"C\" )?fn .*)\n\{\n", rf"\1\n{UNMET}{{\n", bare, flags=re.MULTILINE)
    # the imports stand behind what is said of the whole file
    head = re.match(r"(?:(?://|#!).*\n|\n)*", bare)[0]
    return head + (IMPORTS + "\n" if UNMET in bare else "") + bare[len(head) :]


def archives(test, folder, crates):
    """The archive of each crate of {name: {file of the crate: text}}, as `rt lib` makes it. Where one is not made, the test ends with what rt said."""
    (folder / ".git").mkdir()
    (folder / "crates.txt").write_text("".join(f"{name} staticlib:\n" for name in crates), encoding="utf-8")
    for name, files in crates.items():
        for file, text in files.items():
            path = folder / "crates" / name / file
            path.parent.mkdir(parents=True, exist_ok=True)
            path.write_text(without_contracts(test, text) if path.suffix == ".rt" else text, encoding="utf-8")

    def build(name):
        crate = folder / "crates" / name
        done = subprocess.run(["rt", "lib"], cwd=crate, stdin=subprocess.DEVNULL, stdout=subprocess.PIPE, stderr=subprocess.STDOUT)
        return crate / f"out/lib{name}.a", done

    made = {}
    with ThreadPoolExecutor(min(4, len(os.sched_getaffinity(0)))) as pool:
        for name, (archive, done) in zip(crates, pool.map(build, crates)):
            if done.returncode != 0 or not pathlib.Path(archive).is_file():
                sys.exit(f"{done.stdout.decode(errors='replace')}{test}: {name} was not compiled")
            made[name] = archive
    return made
