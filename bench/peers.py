"""Builds the peers, without cargo's registry: petgraph comes from Debian's packages of Rust sources."""
import pathlib
import shutil
import subprocess
import sys

HERE = pathlib.Path(__file__).resolve().parent
OUT = HERE / "out"
INSTALLED = pathlib.Path("/usr/share/cargo/registry")
PACKAGES = [f"librust-{name}-dev" for name in ("petgraph", "fixedbitset", "indexmap", "hashbrown", "autocfg")]
NO_PETGRAPH = f"""The peer `graph` needs the sources of petgraph. They are not installed, and their packages could not be
downloaded with apt-get ({', '.join(PACKAGES)}).

    apt-get update                       # as root: then apt knows the packages; run the bench again
    python3 bench/run.py --no-graph      # or do without this peer"""


def call(words, where=HERE):
    done = subprocess.run(words, cwd=where, text=True, stdout=subprocess.PIPE, stderr=subprocess.STDOUT)
    if done.returncode != 0:
        sys.exit(f"{' '.join(map(str, words))}\n{done.stdout}")


def download(place):
    """Downloads the packages to the folder; where that fails, apt's own errors would not tell what to do."""
    place.mkdir(parents=True, exist_ok=True)
    words = ["apt-get", "download", *PACKAGES]
    if not shutil.which(words[0]) or subprocess.run(words, cwd=place, capture_output=True).returncode != 0:
        sys.exit(NO_PETGRAPH)


def has_petgraph(registry):
    return any(registry.glob("petgraph-*/Cargo.toml"))


def sources():
    """Where the sources are: installed, or unpacked here from the downloaded packages."""
    if has_petgraph(INSTALLED):
        return INSTALLED
    unpacked = OUT / "debian" / "usr/share/cargo/registry"
    if not has_petgraph(unpacked):
        packages = OUT / "packages"
        download(packages)
        for package in packages.glob("*.deb"):
            call(["dpkg-deb", "-x", package, OUT / "debian"])
    return unpacked


def cargo(crate, options):
    target = OUT / "target"
    call(["cargo", "build", "--release", "--offline", "--quiet", "--target-dir", target] + options, HERE / crate)
    return target / "release" / crate


def plain():
    return cargo("plain", [])


def graph():
    found = sources()
    return cargo("graph", [
        "--config", 'source.crates-io.replace-with="debian"',
        "--config", f'source.debian.directory="{found}"',
    ])
