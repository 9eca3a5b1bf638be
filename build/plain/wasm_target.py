"""Finds a compiler for WebAssembly: rustup's with that target, or Debian's, with whose sources the standard library is compiled once."""
import glob
import hashlib
import os
import shutil
import subprocess
from dataclasses import dataclass

from plain_programs import Compiler, Refused, held

TARGET = "wasm32-wasip1"
CACHE = f"{os.environ.get('XDG_CACHE_HOME') or os.path.expanduser('~/.cache')}/paged"
UNPACKED = f"{CACHE}/rust-web"
PACKAGES = "rustc-web cargo-web rust-web-src libstd-rust-web-dev libstd-rust-web-1.96 libllvm22 libgit2-1.5 libssh2-1 libhttp-parser2.9 libmbedtls14 libmbedx509-1 libmbedcrypto7"
WAYS = f"""there is no compiler for {TARGET}. Either rustup adds it to its own:
    rustup target add {TARGET}
or Debian's packages have all that it is made of, installed:
    apt-get install rustc-web cargo-web rust-web-src lld-19 wasi-libc
or, beside another rustc, in a folder of yours:
    apt-get install lld-19 wasi-libc
    mkdir -p {UNPACKED} && cd {UNPACKED} && apt-get download {PACKAGES}
    for it in *.deb; do dpkg -x "$it" .; done"""


@dataclass
class Debians:
    """Debian's compiler, in the system's folders or unpacked in one of the user's."""

    root: str
    library: str    # the sources of the standard library, with all that they need
    linker: str
    libc: str

    def env(self):
        paths = sorted(glob.glob(f"{self.root}/usr/lib/*-linux-gnu"))
        return {**os.environ, "LD_LIBRARY_PATH": ":".join(paths)} if self.root else dict(os.environ)

    def rustc(self):
        return f"{self.root}/usr/bin/rustc"

    def sysroot(self, say):
        """A folder with the standard library for the target, which is compiled where it is not there."""
        told = subprocess.run([self.rustc(), "-vV"], env=self.env(), stdout=subprocess.PIPE, text=True, check=True).stdout
        made = f"{CACHE}/{TARGET}-{hashlib.sha256(told.encode()).hexdigest()[:16]}"
        os.makedirs(CACHE, exist_ok=True)
        with held(f"{CACHE}/lock"):
            if not os.path.isdir(made):
                say("compiling the standard library for WebAssembly, once, in two minutes")
                self.build(f"{made}.new")
                os.rename(f"{made}.new", made)
        return made

    def build(self, to):
        shutil.rmtree(to, ignore_errors=True)
        os.makedirs(f"{to}/library/.cargo")
        texts = {".cargo/config.toml": f'[source.crates-io]\nreplace-with = "vendored"\n[source.vendored]\ndirectory = "{self.library}/vendor"\n',
                 "Cargo.toml": '[package]\nname = "nothing"\nversion = "0.1.0"\nedition = "2024"\n[lib]\npath = "lib.rs"\n[profile.release]\npanic = "abort"\n',
                 "lib.rs": ""}
        for name, text in texts.items():
            with open(f"{to}/library/{name}", "w", encoding="utf-8") as it:
                it.write(text)
        flags = "-A warnings -C opt-level=3 -C embed-bitcode=yes"
        env = {**self.env(), "RUSTC": self.rustc(), "RUSTC_BOOTSTRAP": "1", "RUSTFLAGS": flags, "CARGO_TARGET_DIR": f"{to}/library/target", "CARGO_HOME": f"{to}/library/home"}
        words = [f"{self.root}/usr/bin/cargo", "build", "--quiet", "--release", "--offline", "-Z", "build-std=std,panic_abort", "--target", TARGET]
        done = subprocess.run(words, cwd=f"{to}/library", env=env, stdout=subprocess.PIPE, stderr=subprocess.STDOUT, text=True, check=False)
        if done.returncode:
            raise Refused(f"the standard library is not compiled:\n{done.stdout}")
        lib = f"{to}/lib/rustlib/{TARGET}/lib"
        os.makedirs(lib)
        for it in glob.glob(f"{to}/library/target/{TARGET}/release/deps/*.rlib"):
            if not os.path.basename(it).startswith("libnothing"):
                shutil.copy(it, lib)
        shutil.rmtree(f"{to}/library")


def debians():
    """Debian's compiler with all that it needs, or None."""
    linkers = [shutil.which(it) for it in ("wasm-ld", *(f"wasm-ld-{version}" for version in range(30, 13, -1)))]
    linker = next((it for it in linkers if it), None)
    libc = "/usr/lib/wasm32-wasi"
    for root in ("", UNPACKED):
        library = f"{root}/usr/lib/rustlib/src/rust/library"
        if linker and all(os.path.exists(it) for it in (f"{root}/usr/bin/rustc", f"{root}/usr/bin/cargo", f"{library}/vendor", f"{libc}/crt1-command.o")):
            return Debians(root, os.path.realpath(library), linker, libc)
    return None


def has_target(words):
    """Whether a compiler has the target's standard library."""
    try:
        told = subprocess.run([*words, "--print", "target-libdir", "--target", TARGET], stdout=subprocess.PIPE, stderr=subprocess.DEVNULL, text=True, check=True)
    except (OSError, subprocess.CalledProcessError):
        return False
    return bool(glob.glob(f"{told.stdout.strip()}/libstd-*.rlib"))


def is_there():
    """Whether there is a compiler for the target, or all that one is made of."""
    return has_target(["rustc"]) or debians() is not None


def compiler(say):
    """A compiler for the target."""
    common = ("--target", TARGET, "-C", "panic=abort", "-C", "strip=symbols")
    linked = ("-C", "lto=fat")
    if has_target(["rustc"]):
        return Compiler(flags=common, link_flags=linked, ending=".wasm")
    found = debians()
    if not found:
        raise Refused(WAYS)
    link = ("-C", f"linker={found.linker}", "-C", "link-self-contained=no", "-L", found.libc, "-C", f"link-arg={found.libc}/crt1-command.o")
    return Compiler([found.rustc()], ("--sysroot", found.sysroot(say), *common), (*linked, *link), ".wasm", found.env())
