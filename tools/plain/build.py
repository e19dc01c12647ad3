"""Builds a program of the repository as plain Rust, with cargo: the same sources, without their contracts. Nothing of such a
build is proved. It stands in a folder of its own, and is built anew where a source has changed."""
import contextlib
import fcntl
import os
import re
import shutil
import subprocess
from collections import namedtuple

from strip import plain_files

HERE = os.path.dirname(os.path.abspath(__file__))
TOP = os.path.normpath(os.path.join(HERE, "..", ".."))
KEPT = os.path.join(TOP, "out", "plain")
WORKSPACE = """[workspace]
resolver = "3"
members = ["*"]
exclude = ["target"]

[profile.release]
opt-level = 1
panic = "abort"

[profile.fast]
inherits = "release"
opt-level = 3
lto = "fat"
codegen-units = 1
"""
# How a program is compiled, by the name of its profile: in half a minute, or as fast code, which takes longer.
QUICKLY, FOR_SPEED = "release", "fast"
# The oldest cargo that knows the edition of the sources.
OLDEST = (1, 85)
# The crates that meet the host, each with the file that does so in a plain program.
HOSTS = {"tta_ports": "host.rs", "tta_stdin": "lines.rs"}
# A crate that is none of the repository's: its name, the folder of its source, and the crates that it stands on.
Added = namedtuple("Added", "name source stands_on")


class CannotBuild(Exception):
    """Why a plain program cannot be built, in one line or with what the compiler says."""


def crates_of(program, added=()):
    """The crates that a program is made of, each with those of the repository, or of the ones that are added, that it stands on."""
    stands_on, found, left = {crate.name: crate.stands_on for crate in added}, {}, [program]
    with open(os.path.join(TOP, "crates.txt"), encoding="utf-8") as lines:
        for line in lines:
            name, _, others = line.split("#")[0].partition(":")
            stands_on[name.strip()] = others.split()
    while left:
        name = left.pop()
        if name in stands_on and name not in found:
            found[name] = [other for other in stands_on[name] if other in stands_on]
            left += found[name]
    if program not in found:
        raise CannotBuild(f"there is no crate {program}")
    return found


def write(path, text):
    """Writes a file where it does not hold the text already, so that cargo compiles only what has changed."""
    if os.path.exists(path):
        with open(path, encoding="utf-8") as f:
            if f.read() == text:
                return
    os.makedirs(os.path.dirname(path), exist_ok=True)
    with open(path, "w", encoding="utf-8") as f:
        f.write(text)


def package(name, target, others):
    """What cargo reads of a package: its name, its one target, and the packages beside it that it stands on."""
    text = f'[package]\nname = "{name}"\nversion = "0.0.0"\nedition = "2024"\n\n{target}\n\n[dependencies]\n'
    return text + "".join(f'{other} = {{ path = "../{other}" }}\n' for other in others)


def write_crate(folder, name, source, others):
    """Writes a crate in plain Rust."""
    target = os.path.join(folder, name, "src")
    is_program = os.path.exists(os.path.join(source, "main.rt"))
    kind = f"[[bin]]\nname = '{name}'\npath = 'src/main.rs'" if is_program else "[lib]\npath = 'src/lib.rs'"
    write(os.path.join(folder, name, "Cargo.toml"), package(name, kind, ["kit", *others]))
    for path, text in plain_files(source):
        write(os.path.join(target, path), text)
    if name in HOSTS:
        with open(os.path.join(HERE, HOSTS[name]), encoding="utf-8") as f:
            write(os.path.join(target, "host.rs"), f.read())


def usable_cargo():
    """The path of cargo, which is new enough."""
    found = f"cargo {OLDEST[0]}.{OLDEST[1]} or newer compiles the plain program"
    cargo = shutil.which("cargo")
    if not cargo:
        raise CannotBuild(f"{found}, and there is no cargo on the path")
    said = subprocess.run([cargo, "--version"], stdin=subprocess.DEVNULL, capture_output=True, text=True, errors="replace")
    version = re.match(r"cargo (\d+)\.(\d+)", said.stdout)
    if not version:
        raise CannotBuild(f"{found}, and `cargo --version` fails: {(said.stderr or said.stdout).strip()}")
    if (int(version[1]), int(version[2])) < OLDEST:
        raise CannotBuild(f"{found}, and that on the path is {version[1]}.{version[2]}")
    return cargo


def environment():
    """What cargo is started with: nothing that leads its output elsewhere. What stands for contracts alone is left without use, so there
    are no warnings."""
    kept = {name: value for name, value in os.environ.items() if not name.startswith(("CARGO_BUILD_", "CARGO_TARGET_", "CARGO_ENCODED_"))}
    return {**kept, "RUSTFLAGS": "-Awarnings"}


@contextlib.contextmanager
def alone(folder, waiting=lambda: None):
    """Works in a folder while nobody else does, which is made where it is not there. `waiting` is called where somebody does. Gives the
    time of a file that is written at the begin."""
    os.makedirs(folder, exist_ok=True)
    with open(os.path.join(folder, "lock"), "a") as lock:
        try:
            fcntl.flock(lock, fcntl.LOCK_EX | fcntl.LOCK_NB)
        except BlockingIOError:
            waiting()
            fcntl.flock(lock, fcntl.LOCK_EX)
        except OSError:
            # A file system without locks: cargo has some of its own.
            pass
        os.utime(lock.fileno())
        yield os.stat(lock.fileno()).st_mtime_ns


def run_cargo(words, folder):
    """Runs cargo to its end. Where this is stopped, it is too."""
    with subprocess.Popen(
        words, cwd=folder, env=environment(), stdin=subprocess.DEVNULL, stdout=subprocess.DEVNULL, stderr=subprocess.PIPE, text=True, errors="replace"
    ) as cargo:
        try:
            said = cargo.communicate()[1]
        except KeyboardInterrupt:
            cargo.terminate()
            raise
    if cargo.returncode != 0:
        raise CannotBuild(f"the plain program cannot be built:\n{said}")


def write_all(crates, folder, added):
    """Writes all packages that cargo builds."""
    write(os.path.join(folder, "Cargo.toml"), WORKSPACE)
    write(os.path.join(folder, "kit", "Cargo.toml"), package("kit", "[lib]\npath = 'lib.rs'", []))
    for name in os.listdir(os.path.join(HERE, "kit")):
        with open(os.path.join(HERE, "kit", name), encoding="utf-8") as f:
            write(os.path.join(folder, "kit", name), f.read())
    sources = {crate.name: crate.source for crate in added}
    for name, others in crates.items():
        write_crate(folder, name, sources.get(name) or os.path.join(TOP, "crates", name, "src"), others)


def build(program, folder=KEPT, profile=QUICKLY, waiting=lambda: None, added=(), to=None):
    """Builds a program in a folder, and gives its path. Its time is that of the begin, so that it is newer than each source of which it
    was made. A program of crates that are added is copied to another place, and nothing of these crates stays."""
    cargo = usable_cargo()
    crates = crates_of(program, added)
    with alone(folder, waiting) as begun:
        try:
            write_all(crates, folder, added)
            run_cargo([cargo, "build", "--profile", profile, "--offline", "--quiet", "--package", program, "--target-dir", "target"], folder)
            path = os.path.join(folder, "target", profile, program)
            if not os.path.exists(path):
                raise CannotBuild(f"the plain program cannot be built: cargo left none at {path}")
            os.utime(path, ns=(begun, begun))
            return shutil.copy(path, to) if to else path
        finally:
            for crate in added:
                shutil.rmtree(os.path.join(folder, crate.name), ignore_errors=True)
