#!/usr/bin/env python3
"""What the check of one crate takes, module by module.

    bench/modules.py FOLDER CRATE

FOLDER is a clone in which `rt ci` has proved what stands below the crate, so that those libraries are there as
built. The check is made with one job over a new incremental folder, and the time of
each module is that between its file and the one before it. `Lts` modules are what a body does step by step, `Proof`
its proof; what is read of libraries counts to the module that first needs it.
"""
import collections
import os
import subprocess
import sys
import tempfile
import time


def standing(folder):
    """The crates that each crate names in crates.txt."""
    lines = [line for line in open(f"{folder}/crates.txt", encoding="utf-8") if ":" in line and not line.startswith("#")]
    return {name.strip(): names.split() for name, names in (line.split(":") for line in lines)}


def below(crate, names, found):
    """The crates of the repository below one, each once."""
    for name in names[crate]:
        if name in names and name not in found:
            below(name, names, found)
            found.append(name)
    return found


def words(folder, crate, kept):
    """The command that checks a crate over what was built below it."""
    names = standing(folder)
    built = lambda name: f"{folder}/crates/{name}/out/rlib"
    libraries = [f"{name}={built(name)}/{name}.rlib" if name in names else f"{name}=/opt/rattle/rlibs/{name}.rlib" for name in names[crate]]
    found = ["/opt/rattle/bin/rattle", "check", "--crate-name", crate, "src/lib.rt", "--extern", "std=/opt/rattle/rlibs/std.rlib"]
    found += ["-L", "dependency=/opt/rattle/rlibs"]
    for library in libraries:
        found += ["--extern", library]
    for name in below(crate, names, []):
        found += ["-L", f"dependency={built(name)}"]
    found += ["--antt-project", "/opt/rattle/rattle/logic/antt-project.json", "--logic-built", "/opt/rattle/logic_built"]
    return [*found, "--links", f"{crate}=", "--jobs", "1", "--incremental", kept]


def main():
    folder, crate = sys.argv[1:3]
    with tempfile.TemporaryDirectory() as kept:
        begun = time.time()
        subprocess.run(words(folder, crate, kept), cwd=f"{folder}/crates/{crate}", stdout=subprocess.DEVNULL, check=True)
        ended = time.time()
        files = [f"{at}/{name}" for at, _, names in os.walk(kept) for name in names if name.endswith(".oantt")]
        times = sorted((os.stat(it).st_mtime, os.path.basename(it).removesuffix(".oantt")) for it in files)
    took = [(at - before, name) for (before, _), (at, name) in zip([(begun, ""), *times], times)]
    print(f"{crate}: {ended - begun:.1f} seconds, {len(took)} modules")
    for seconds, name in sorted(took, reverse=True)[:40]:
        print(f"{seconds:6.2f} {name}")
    kinds = collections.Counter()
    for seconds, name in took:
        kinds[name.removesuffix(".decls").rsplit(".", 1)[-1].split("-")[0]] += seconds
    print(", ".join(f"{kind} {seconds:.1f}" for kind, seconds in kinds.most_common(12)))


if __name__ == "__main__":
    main()
