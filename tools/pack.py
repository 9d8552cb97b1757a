#!/usr/bin/env python3
"""Packs what who runs servers needs: the program, `ircd-check`, the units, the manual page, the
example files and the pages about them, as an archive and as a .deb.

    ./ircd pack FOLDER

The version is in each name and in a file VERSION: when the commit was made, which one it is, and a
sum of the program. Packed twice from one commit and one program the files have the same bytes.
Files that differ from the commit are refused, since the version would not name them. Status 1:
nothing was packed, and standard error says why.
"""
import gzip
import hashlib
import os
import shutil
import subprocess
import sys
import tarfile
import tempfile
import time

TOP = os.path.dirname(os.path.dirname(os.path.abspath(__file__)))
NAME = "treeircd"

# Files of the repository and where each stands in the archive, beside the program: at the top
# those that README.md installs, and all where the pages say that they are.
PLAIN = (
    ("ircd-check", "ircd-check"), ("docs/ircd.8", "ircd.8"),
    ("examples/server.toml", "server.toml"), ("examples/ircd.service", "ircd.service"),
    ("README.md", "README.md"), ("docs/ircd.8", "docs/ircd.8"),
    ("docs/OPERATING.md", "docs/OPERATING.md"), ("docs/PROFILE.md", "docs/PROFILE.md"),
    ("examples", "examples"),
)
PAGES = f"usr/share/doc/{NAME}"
# .. and in the .deb
INSTALLED = (
    ("ircd-check", "usr/bin/ircd-check"), ("docs/ircd.8", "usr/share/man/man8/ircd.8"),
    ("examples/ircd.service", "usr/lib/systemd/system/ircd.service"),
    ("examples/ircd@.service", "usr/lib/systemd/system/ircd@.service"),
    ("README.md", f"{PAGES}/README.md"), ("docs/OPERATING.md", f"{PAGES}/docs/OPERATING.md"),
    ("docs/PROFILE.md", f"{PAGES}/docs/PROFILE.md"), ("examples", f"{PAGES}/examples"),
)
# what says where the files are when they are put there by hand, and where the .deb has them
MOVED = ("/usr/local/bin/", "/usr/bin/"), ("/usr/local/share/man/", "/usr/share/man/")
SPEAK_OF_PLACES = ("docs/ircd.8", "examples/ircd.service", "examples/ircd@.service")
EXECUTABLE = ("ircd", "ircd-check")

CONTROL = """\
Package: {name}
Version: {version}
Architecture: amd64
Maintainer: whoever packed this <root@localhost>
Depends: libc6 (>= 2.34)
Recommends: python3 (>= 3.11)
Suggests: systemd (>= 247)
Section: net
Priority: optional
Description: IRC servers, alone or linked into a tree
 The program ircd, ircd-check, the units ircd.service and ircd@.service, and their pages. No server
 is started by it: /usr/share/doc/{name}/README.md says how one is.
"""


def git(*words):
    done = subprocess.run(["git", "-C", TOP, *words], capture_output=True, check=True, text=True)
    return done.stdout.strip()


class Version:
    """What names a program: its commit, when that was made, and its sum."""

    def __init__(self, program):
        self.commit, self.moment = git("rev-parse", "HEAD"), int(git("log", "-1", "--format=%ct"))
        with open(program, "rb") as file:
            self.sum = hashlib.sha256(file.read()).hexdigest()

    def word(self):
        day = time.strftime("%Y%m%d.%H%M%S", time.gmtime(self.moment))
        return f"1+{day}.{self.commit[:10]}.{self.sum[:10]}"

    def lines(self):
        return (f"{NAME} {self.word()}\ncommit {self.commit}\n"
                f"sha256sum of the program ircd {self.sum}\n")


def put(source, to, moved=()):
    """Copies a file, or what git has of a folder, with other places in its text."""
    if os.path.isdir(source):
        for it in git("ls-files", "--", os.path.relpath(source, TOP)).splitlines():
            put(f"{TOP}/{it}", f"{to}/{os.path.relpath(f'{TOP}/{it}', source)}")
        return
    os.makedirs(os.path.dirname(to), exist_ok=True)
    with open(source, "rb") as file:
        content = file.read()
    for old, new in moved:
        content = content.replace(old.encode(), new.encode())
    with open(to, "wb") as file:
        file.write(content)


def lay_out(folder, program, version, places, program_place):
    """Puts all files into a folder, those in which places are named with these."""
    is_moved = places is INSTALLED
    for source, place in places:
        moved = MOVED if is_moved and source in SPEAK_OF_PLACES else ()
        put(f"{TOP}/{source}", f"{folder}/{place}", moved)
    put(program, f"{folder}/{program_place}")
    with open(f"{folder}/{PAGES if is_moved else '.'}/VERSION", "w", encoding="ascii") as file:
        file.write(version.lines())
    os.chmod(folder, 0o755)
    for at, folders, files in os.walk(folder):
        for it in folders + files:
            is_run = it in folders or it in EXECUTABLE
            os.chmod(f"{at}/{it}", 0o755 if is_run else 0o644)


def archive(program, version, to):
    """Writes the archive, all of which stands in one folder."""
    stem = f"{NAME}-{version.word()}"

    def plain(entry):
        entry.mtime, entry.uid, entry.gid, entry.uname, entry.gname = version.moment, 0, 0, "", ""
        return entry

    with tempfile.TemporaryDirectory() as room, open(f"{to}/{stem}.tar.gz", "wb") as file:
        lay_out(f"{room}/{stem}", program, version, PLAIN, "ircd")
        with gzip.GzipFile("", "wb", fileobj=file, mtime=version.moment) as packed:
            with tarfile.open(fileobj=packed, mode="w") as it:
                it.add(f"{room}/{stem}", stem, filter=plain)
    return f"{to}/{stem}.tar.gz"


def package(program, version, to):
    """Writes the .deb; None where there is no dpkg-deb."""
    if not shutil.which("dpkg-deb"):
        return None
    made = f"{to}/{NAME}_{version.word()}_amd64.deb"
    with tempfile.TemporaryDirectory() as room:
        os.chmod(room, 0o755)
        lay_out(room, program, version, INSTALLED, "usr/bin/ircd")
        os.mkdir(f"{room}/DEBIAN", 0o755)
        with open(f"{room}/DEBIAN/control", "w", encoding="ascii") as file:
            file.write(CONTROL.format(name=NAME, version=version.word()))
        words = ["dpkg-deb", "--build", "--root-owner-group", room, made]
        moment = {**os.environ, "SOURCE_DATE_EPOCH": str(version.moment)}
        subprocess.run(words, check=True, env=moment, stdout=subprocess.DEVNULL)
    return made


def main():
    program, to = map(os.path.abspath, sys.argv[1:])
    try:
        changed = git("status", "--porcelain", "--untracked-files=no")
        version = Version(program)
    except (OSError, subprocess.CalledProcessError) as error:
        sys.exit(f"ircd: the version cannot be told: {error}")
    if changed:
        sys.exit(f"ircd: these differ from the commit that the version names:\n{changed}")
    os.makedirs(to, exist_ok=True)
    print(archive(program, version, to))
    print(package(program, version, to) or "ircd: no .deb, since there is no dpkg-deb")
    return 0


if __name__ == "__main__":
    sys.exit(main())
