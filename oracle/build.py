"""Builds a program that has the published Rust in it, outside the repository. oracle/run and bench/run use it."""
import os
import pathlib
import re
import shutil
import subprocess
import sys

HERE = pathlib.Path(__file__).resolve().parent
HEADER = HERE.parent / "include/varitmol.h"
PUBLISHED = ["bpe/mod.rs", "bpe/sentencepiece.rs", "token.rs", "pretokenize/mod.rs"]
# What the published files are written in.
LEAST_RUSTC = (1, 88)
# A crate from the packages, and the version from which it is used as it is.
CRATES = {"aho-corasick": 1, "memchr": 2, "rayon": 1, "rustc-hash": 2}
OLDER = {"aho-corasick": "version_0_7", "rustc-hash": "version_1"}


def stop(text):
    command = pathlib.Path(sys.argv[0]).resolve()
    sys.exit(f"{command.parent.name}/{command.name}: {text}")


def need(program, why):
    if not shutil.which(program):
        stop(f"{program} is not installed; it {why}")


def need_rustc():
    need("cargo", "builds the Rust")
    need("rustc", "builds the Rust")
    said = subprocess.run(["rustc", "--version"], capture_output=True, text=True).stdout
    found = re.match(r"rustc (\d+)\.(\d+)", said)
    if not found or tuple(map(int, found.groups())) < LEAST_RUSTC:
        stop(f"rustc {LEAST_RUSTC[0]}.{LEAST_RUSTC[1]} or later is needed, this is {said.strip() or 'none'}")


def run(command, **options):
    """Runs a command that is to succeed; what it said is shown only if it did not."""
    done = subprocess.run(command, stdout=subprocess.PIPE, stderr=subprocess.STDOUT, text=True, **options)
    if done.returncode:
        stop(f"`{' '.join(map(str, command[:3]))} ...` failed:\n{done.stdout.strip()}")


def shared_library(path, work):
    """The library as one that can be loaded: a static one is linked, a shared one taken as it is."""
    path = pathlib.Path(path)
    if not path.is_file():
        stop(f"there is no library {path}; `rt lib` in crates/varitmol makes crates/varitmol/out/libvaritmol.a")
    if path.suffix != ".a":
        return path.resolve()
    need("gcc", "makes a shared library of a static one")
    shared = work / "libvaritmol.so"
    run(["gcc", "-shared", "-o", shared, "-Wl,--whole-archive", path, "-Wl,--no-whole-archive"])
    return shared


def version(folder, name):
    """The newest version of a crate in a folder of crates."""
    found = [(tuple(map(int, v)), ".".join(v)) for entry in folder.glob(name + "-*")
             if (match := re.fullmatch(re.escape(name) + r"-(\d+)\.(\d+)\.(\d+)(?:[-+].*)?", entry.name)) and (v := match.groups())]
    if not found:
        stop(f"{folder} has no crate {name}; Debian's librust-{name}-dev has it, or name another folder with --crates")
    return max(found)


def item(source, head, text):
    """The item of `source` that has `head`, to the brace that closes it, as it stands there."""
    if head not in text:
        stop(f"{source} has no `{head}`; is it the published file?")
    start = text.index(head)
    at, depth = text.index("{", start), 0
    while True:
        depth += {"{": 1, "}": -1}.get(text[at], 0)
        at += 1
        if depth == 0:
            return text[start:at]


def write(path, content):
    """Writes a file, unless it holds that already: cargo builds anew what has changed."""
    content = content if isinstance(content, bytes) else content.encode()
    path.parent.mkdir(parents=True, exist_ok=True)
    if not path.exists() or path.read_bytes() != content:
        path.write_bytes(content)


def manifest(name, target, dependencies):
    """The manifest of a package, which `target` says the kind and the path of."""
    return f'[package]\nname = "{name}"\nversion = "9.0.0"\nedition = "2024"\n{target}\n[dependencies]\n' + "".join(
        f"{key} = {value}\n" for key, value in dependencies.items())


def write_shim(folder, name, dependencies):
    """A crate of one file that stands for a published one."""
    write(folder / "lib.rs", (HERE / "shims" / f"{name.replace('-', '_')}.rs").read_bytes())
    write(folder / "Cargo.toml", manifest(name, '[lib]\npath = "lib.rs"', dependencies))


def program(name, rust, sources, crates, work):
    """Builds `name` of the files `sources` and of the published ones in the folder `rust`; gives the program's path."""
    need_rustc()
    rust, crates = pathlib.Path(rust), pathlib.Path(crates)
    for file in PUBLISHED:
        if not (rust / file).is_file():
            stop(f"there is no {rust / file}; RUST is the folder that has bpe/sentencepiece.rs")
    if not crates.is_dir():
        stop(f"there is no folder {crates}; Debian's librust-aho-corasick-dev, -memchr-dev, -rayon-dev and -rustc-hash-dev fill it")
    work = work / name
    dependencies = {}
    for shim in ("eyre", "libc", "spm_precompiled"):
        write_shim(work / shim, shim, {})
        dependencies[shim] = f'{{ path = "{shim}" }}'
    for crate, least in CRATES.items():
        numbers, text = version(crates, crate)
        if numbers[0] >= least:
            dependencies[crate] = f'"={text}"'
        else:
            write_shim(work / crate, crate, {OLDER[crate]: f'{{ package = "{crate}", version = "={text}" }}'})
            dependencies[crate] = f'{{ path = "{crate}" }}'
    target = f'[[bin]]\nname = "{name}"\npath = "src/main.rs"\n[profile.release]\ndebug = 1'
    write(work / "Cargo.toml", manifest(name, target, dependencies))
    write(work / ".cargo/config.toml",
          f'[source.crates-io]\nreplace-with = "folder"\n[source.folder]\ndirectory = "{crates.resolve()}"\n')
    for file in PUBLISHED[:3]:
        write(work / "src" / file, (rust / file).read_bytes())
    keys = (rust / PUBLISHED[3]).read_text()
    write(work / "src/pretokenize.rs", "\n".join(item(PUBLISHED[3], head, keys) for head in
                                                 ("pub(crate) const fn pack_mask_halves", "pub(crate) fn pack_pretoken_key")))
    write(work / "src/bpe/tiktoken.rs", (HERE / "shims/tiktoken.rs").read_bytes())
    write(work / "src/bpe/pretoken_cache.rs", "")
    lengths = re.findall(r"#define VARITMOL_(ADJACENCY_LEN|INDEX_LEN) (\d+)", HEADER.read_text())
    write(work / "src/lengths.rs", "".join(f"pub const {key}: usize = {length};\n" for key, length in lengths))
    for file in sources:
        write(work / "src" / file.name, file.read_bytes())
    run(["cargo", "build", "--release", "--offline", "--quiet"], cwd=work, env={**os.environ, "RUSTC_BOOTSTRAP": "1"})
    return work / "target/release" / name
