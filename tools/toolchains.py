"""The kit's toolchain, with scripts in the place of some of its tools: how a build of ours changes what a module is compiled to."""
import os
import shlex
import subprocess
import sys

from common import TOP, below, crates

# In place of the kit's clang: the module is written as text, a rewrite goes over it, and what that writes is compiled.
REWRITTEN = """module=
for word do
    case $word in *.bc) module=$word ;; esac
done
if [ -n "$module" ]; then
    {tool} --target=x86_64-unknown-linux-gnu -x ir "$module" -S -emit-llvm -Xclang -disable-llvm-passes -O0 -o {keep} || exit
    {python} {rewrite} {keep} >"$module.rewritten.ll" || exit
    for word do
        shift
        [ "$word" = "$module" ] && word=$module.rewritten.ll
        set -- "$@" "$word"
    done
fi
exec {tool} "$@"
"""


def kit_folder():
    """Where the kit is."""
    said = subprocess.run(["rt", "doc"], stdout=subprocess.PIPE, text=True, check=True).stdout
    return os.path.dirname(said.split()[0])


def scripted(kit, folder, scripts, **words):
    """Makes a folder like the kit's toolchain, where a shell script stands for each tool that is named. In a script `{tool}` is the kit's
    own tool, and the other words are those that are given, quoted where they are texts."""
    os.makedirs(f"{folder}/bin")
    os.symlink(f"{kit}/toolchain/lib", f"{folder}/lib")
    words = {name: shlex.quote(word) if isinstance(word, str) else word for name, word in words.items()}
    for tool in os.listdir(f"{kit}/toolchain/bin"):
        theirs, ours = f"{kit}/toolchain/bin/{tool}", f"{folder}/bin/{tool}"
        if tool not in scripts:
            os.symlink(theirs, ours)
            continue
        with open(ours, "w", encoding="utf-8") as script:
            script.write("#!/bin/sh\n" + scripts[tool].format(tool=shlex.quote(theirs), **words))
        os.chmod(ours, 0o755)


def with_instructions(kit, folder, keep):
    """A toolchain that puts the processor's instructions in the place of the functions of crates/instructions. The module as it was before
    that is kept at `keep`."""
    scripted(kit, folder, {"clang": REWRITTEN}, python=sys.executable, rewrite=f"{TOP}/tools/use-instructions", keep=keep)


def static_library(kit, toolchain, name, archive, cpu):
    """The words that build a static library by a toolchain, as `rt lib` does. `rt lib` has to have built it before: what that has proved
    isn't proved again."""
    named = crates()
    theirs = dict.fromkeys(["std", *(library for library in named[name] if library not in named)])
    rlib = {crate: f"{TOP}/crates/{crate}/out/rlib/{crate}.rlib" for crate in below(name, named)}
    words = [f"{kit}/bin/rattle", "build", "--crate-name", name, "src/lib.rt"]
    for library in theirs:
        words += ["--extern", f"{library}={kit}/rlibs/{library}.rlib"]
    words += ["-L", f"dependency={kit}/rlibs"]
    for library in named[name]:
        if library in named:
            words += ["--extern", f"{library}={rlib[library]}"]
    for path in rlib.values():
        words += ["-L", f"dependency={os.path.dirname(path)}"]
    words += ["--antt-project", f"{kit}/rattle/logic/antt-project.json", "--logic-built", f"{kit}/logic_built", "--jobs", "1"]
    words += ["--links", f"{name}=", "--crate-type", "staticlib", f"--cpu={cpu}", "--toolchain", toolchain, "--backend", "llvm"]
    return words + ["--incremental", "out/incremental", "-o", archive]
