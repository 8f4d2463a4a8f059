"""Programs of checks/, which stand on the crates."""
import os, shutil, subprocess, sys

TOP = os.path.dirname(os.path.dirname(os.path.abspath(__file__)))


def program(room, folder, name, libraries):
    """The program in a folder, as a crate of this name: it is proved first over the libraries that earlier checks left
    in out/, in a scratch copy. Its files have endings of their own, as the gate reads no code and no proof beside its
    crates."""
    shutil.copy(f"{TOP}/HANDLES", room)
    os.mkdir(f"{room}/.git")
    for crate in os.listdir(f"{TOP}/crates"):
        there, here = f"{TOP}/crates/{crate}", f"{room}/crates/{crate}"
        shutil.copytree(there, here, ignore=shutil.ignore_patterns("out", "must-fail"))
        if os.path.isdir(f"{there}/out/rlib"):
            shutil.copytree(f"{there}/out/rlib", f"{here}/out/rlib")
    made = f"{room}/crates/{name}"
    for at, _, names in os.walk(folder):
        below = os.path.relpath(at, folder)
        to = f"{made}/src" if below == "." else f"{made}/{below}"
        os.makedirs(to)
        for it in names:
            if it.endswith((".rattle", ".proof")):
                shutil.copy(f"{at}/{it}", f"{to}/{it.replace('.rattle', '.rt').replace('.proof', '.antt')}")
    with open(f"{TOP}/crates.txt") as it:
        lines = it.read()
    with open(f"{room}/crates.txt", "w") as it:
        it.write(f"{lines}{name}: {libraries}\n")
    subprocess.run(["rt", "run", "--", "none"], cwd=made, stdout=sys.stderr)
    return f"{made}/out/{name}"
