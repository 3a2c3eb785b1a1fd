"""The manifest beside a proved program: its SHA-256, the commit and the toolchain that it comes from, and a sum of each crate that was proved for it."""
import hashlib
import shutil
import subprocess

from proving import PARTS

ENDING = ".manifest"


def said(words, folder):
    """The first line that a command prints, or nothing where it fails."""
    if not shutil.which(words[0]):
        return ""
    ran = subprocess.run(words, cwd=folder, stdin=subprocess.DEVNULL, stdout=subprocess.PIPE, stderr=subprocess.DEVNULL, encoding="utf-8")
    return ran.stdout.partition("\n")[0] if ran.returncode == 0 else ""


def kit(top):
    """What the toolchain says of itself."""
    return said(["rt", "--version"], top) or "unknown"


def commit(top):
    """The commit of the work tree, and whether what is proved has been changed since."""
    found = said(["git", "rev-parse", "HEAD"], top)
    if not found:
        return "unknown"
    changed = said(["git", "status", "--porcelain", "--", "crates", "crates.txt", "HANDLES"], top)
    return f"{found} with changes" if changed else found


def sum_of_file(path):
    return hashlib.sha256(path.read_bytes()).hexdigest()


def sum_of_crate(crates, name):
    """A sum of the crate's line in crates.txt, and of all files that its proof reads: their names and what they hold."""
    folder = crates.folder(name)
    files = sorted((it for part in PARTS for it in (folder / part).rglob("*") if it.is_file()), key=lambda it: it.relative_to(folder).parts)
    lines = [" ".join(crates.lines[name].split()), *[f"{sum_of_file(it)} {'/'.join(it.relative_to(folder).parts)}" for it in files]]
    return hashlib.sha256("\n".join(lines).encode()).hexdigest()


def sums(crates, name):
    return {it: sum_of_crate(crates, it) for it in [*crates.below([name]), name]}


def write(crates, name, program):
    """Writes the manifest of a program that was proved of these crates."""
    lines = [f"program {name}", f"sha256 {sum_of_file(program)}", f"commit {commit(crates.top)}", f"kit {kit(crates.top)}",
             *[f"crate {it} {found}" for it, found in sums(crates, name).items()]]
    part = program.with_name(program.name + ENDING + ".part")
    part.write_text("".join(f"{line}\n" for line in lines), encoding="utf-8")
    part.replace(program.with_name(program.name + ENDING))


class Manifest:
    """What a manifest says."""

    def __init__(self, path):
        self.words, self.crates = {}, {}
        for line in path.read_text(encoding="utf-8").splitlines():
            word, _, rest = line.partition(" ")
            if word == "crate":
                name, _, found = rest.partition(" ")
                self.crates[name] = found
            else:
                self.words[word] = rest


def differences(crates, program):
    """The manifest beside a program, and what differs between it, the program, the toolchain and the crates here."""
    path = program.with_name(program.name + ENDING)
    if not program.is_file() or not path.is_file():
        return None, [f"there is no {program if not program.is_file() else path}"]
    manifest, found = Manifest(path), []
    name, here = manifest.words.get("program", ""), sum_of_file(program)
    if manifest.words.get("sha256") != here:
        found.append(f"the program has the SHA-256 {here}, and the manifest {manifest.words.get('sha256', 'none')}")
    if kit(crates.top) not in ("unknown", manifest.words.get("kit")):
        found.append(f"the toolchain here is {kit(crates.top)}, and was {manifest.words.get('kit', 'not told')}")
    if name not in crates.lines:
        return manifest, [*found, f"there is no crate {name or '(none)'} here"]
    own = sums(crates, name)
    for it in dict.fromkeys([*own, *manifest.crates]):
        if own.get(it) != manifest.crates.get(it):
            found.append(f"the crate {it} is not here" if it not in own else f"the crate {it} was not proved for it" if it not in manifest.crates else
                         f"the crate {it} is another than was proved")
    return manifest, found
