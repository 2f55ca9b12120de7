"""The LLVM modules of one crate for both targets, as texts of functions that can be compared.

The toolchain's own module for wasm64 has what x86-64's lacks: each function begins with a look at the stack. Without it, with values
and blocks renamed in the order in which they come, and without attributes, functions that mean the same are the same text.
"""
import pathlib
import re
import subprocess
import sys

from tool_case import ROOT

sys.path.insert(0, str(ROOT / "tests"))
from kit.toolchain import Crate, kit, prover  # noqa: E402  (found by the path above)

TARGETS = {"x86": "x86_64-unknown-linux-gnu", "wasm": "wasm64-unknown-unknown"}
DEFINED = re.compile(r'^define internal .*? @("[^"]*"|\w+)\(.*?^\}$', re.MULTILINE | re.DOTALL)
LOOK = re.compile(
    r"  (%\w+) = call ptr @llvm\.frameaddress\.p0\(i32 0\)\n  (%\w+) = ptrtoaddr ptr \1 to i64\n  (%\w+) = icmp slt i64 \2, \d+\n"
    r"  br i1 \3, label %([\w.]+), label %([\w.]+)\n\n\5:.*\n"
)
METADATA = re.compile(r"^(!\d+) = (.*)$", re.MULTILINE)


def module_of(folder: pathlib.Path, source: str, target: str) -> str:
    """The text of the module of a crate `plain` without dependencies, which the toolchain proves and compiles for a target."""
    crate = folder / target / "crates/plain"
    (crate / "src").mkdir(parents=True)
    (crate / "src/lib.rt").write_text(source, encoding="utf-8")
    subprocess.run([ROOT / "packaging/web/keep_module", folder / target / "toolchain", folder / target / "plain.bc"], check=True)
    words = prover("build", folder / target, {"plain": Crate("plain", ("staticlib",), (), ("std",))}, "plain")
    words += ["--toolchain", str(folder / target / "toolchain"), "--backend", "llvm", "--jobs", "1", "-o", str(folder / target / "plain.a")]
    words += ["--target", TARGETS[target]] if target == "wasm" else []
    subprocess.run(words, cwd=crate, check=True, capture_output=True)
    out = folder / target / "plain.ll"
    clang = [f"{kit()}/toolchain/bin/clang", "--no-default-config", f"--target={TARGETS[target]}", "-Xclang", "-disable-llvm-passes"]
    subprocess.run([*clang, "-S", "-emit-llvm", "-x", "ir", folder / target / "plain.bc", "-o", out], check=True)
    return out.read_text(encoding="utf-8")


def functions(module: str) -> dict[str, str]:
    """The texts of a module's internal functions, by their names."""
    metadata = dict(METADATA.findall(module))
    return {found[1]: comparable(found[0], metadata) for found in DEFINED.finditer(module)}


def comparable(text: str, metadata: dict[str, str]) -> str:
    while look := LOOK.search(text):
        text, trap = text[: look.start()] + text[look.end() :], look[4]
        if f"label %{trap}" not in text:
            text = re.sub(rf"\n\n{re.escape(trap)}:.*\n  call void @llvm\.trap\(\)\n  unreachable\n", "\n", text)
    text = re.sub(r" +; preds = .*", "", text)
    text = re.sub(r"!\d+", lambda found: metadata.get(found[0], found[0]), text)
    text = re.sub(r"(?<=\)) (?:unnamed_addr )?#\d+", "", text)
    names: dict[str, str] = {}
    text = re.sub(r"^([\w.]+|\"[^\"]*\"):", r"%\1:", text, flags=re.MULTILINE)
    return re.sub(r'%(?:[\w.]+|"[^"]*")', lambda found: names.setdefault(found[0], f"%{len(names)}"), text)
