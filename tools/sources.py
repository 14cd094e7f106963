"""The sources of the crates, and what the file PROVED at the top says of them: on its first line the kit's logic, by which the gate
has proved them, and for each crate of crates.txt a sum of its src/ and specs/."""
import hashlib
import os
import re
import shutil
import subprocess

TOP = os.path.dirname(os.path.dirname(os.path.realpath(__file__)))
PROVED = f"{TOP}/PROVED"


def crates():
    """The crates of crates.txt, each with the words behind its colon: those that it stands on, and libraries of the kit."""
    with open(f"{TOP}/crates.txt", encoding="utf-8") as it:
        lines = [line.split("#")[0].partition(":") for line in it]
    return {head.split()[0]: rest.split() for head, colon, rest in lines if colon}


def below(name):
    """The crates that a crate stands on, and it itself, in the order of the alphabet."""
    listed, found, left = crates(), set(), [name]
    while left:
        crate = left.pop()
        if crate in listed and crate not in found:
            found.add(crate)
            left += listed[crate]
    return sorted(found)


def sum_of(crate):
    """A sum of the names and the bytes of the files in the crate's src/ and specs/. What stands in proofs/ changes no program
    and no promise."""
    whole, folder = hashlib.sha256(), f"{TOP}/crates/{crate}"
    for part in ("src", "specs"):
        for at, folders, files in os.walk(f"{folder}/{part}"):
            folders.sort()
            for file in sorted(files):
                with open(f"{at}/{file}", "rb") as it:
                    whole.update(f"{os.path.relpath(at, folder)}/{file} {hashlib.sha256(it.read()).hexdigest()}\n".encode())
    return whole.hexdigest()


def logic():
    """The kit's logic as `rt version` says it, or nothing where there is no kit."""
    rt = shutil.which("rt")
    said = subprocess.run([rt, "version"], capture_output=True, text=True, errors="replace").stdout if rt else ""
    found = re.search(r"\blogic (\w+)", said)
    return found and found[1]


def proved():
    """What PROVED says: words, each with what stands behind it on its line; none where there is no such file."""
    if not os.path.isfile(PROVED):
        return {}
    with open(PROVED, encoding="utf-8", errors="replace") as it:
        lines = [line.split() for line in it]
    return {words[0]: words[1] for words in lines if len(words) == 2}


def unproved(names):
    """Why PROVED doesn't speak of the kit that is here and of the crates named as they are; nothing where it does."""
    said = proved()
    if not said:
        return "there is no file PROVED"
    here = logic()
    if not here:
        return "the command rt of the Rattle kit is not on the PATH"
    if said.get("logic") != here:
        return f"the kit is of the logic {here}, and PROVED of {said.get('logic', 'none')}"
    edited = [it for it in names if said.get(it) != sum_of(it)]
    return f"{' and '.join(edited)} {'was' if len(edited) == 1 else 'were'} edited" if edited else ""
