"""The library as WebAssembly for tests: built once in a run, and asked in Node or in a browser."""
import base64
import functools
import json
import os
import pathlib
import shutil
import subprocess
import tempfile
from collections.abc import Iterator
from typing import Any

from tool_case import ROOT

HERE = pathlib.Path(__file__).resolve().parent
# The LLVM module of the proved library, which tests/gate/proofs keeps beside its archive.
ARCHIVE = pathlib.Path(os.environ.get("DOMETHYME_ARCHIVE") or ROOT / "crates/domethyme_c/out/libdomethyme_c.a")
MODULE = pathlib.Path(os.environ.get("DOMETHYME_MODULE") or ARCHIVE.with_name("domethyme_c.bc"))


def build(out: pathlib.Path) -> pathlib.Path:
    """Runs packaging/build-web, which proves nothing here; returns the folder."""
    assert MODULE.exists(), f"no module at {MODULE}: ./test keeps it, or DOMETHYME_MODULE names it"
    given = {**os.environ, "DOMETHYME_MODULE": str(MODULE)}
    ran = subprocess.run([ROOT / "packaging/build-web", out], env=given, check=False, capture_output=True, text=True)
    assert ran.returncode == 0, ran.stderr
    return out


@functools.cache
def built() -> pathlib.Path:
    """The folder of packaging/build-web, with the tests' own modules beside; it goes with the process."""
    folder = tempfile.TemporaryDirectory(prefix="web-")
    built.folder = folder  # type: ignore[attr-defined]
    out = build(pathlib.Path(folder.name))
    for name in ("questions.js", "ask.mjs"):
        shutil.copy(HERE / "web" / name, out)
    return out


def ask_node(name: str, *words: Any, module: pathlib.Path | None = None) -> Any:
    """What a function of questions.js returns in Node."""
    question = {"module": str(module or built() / "domethyme.wasm"), "name": name, "words": words}
    ran = subprocess.run(["nodejs", built() / "ask.mjs"], input=json.dumps(question), capture_output=True, text=True, check=False)
    if ran.returncode:
        raise AssertionError(ran.stderr)
    return json.loads(ran.stdout)


def script() -> str:
    """questions.js and domethyme.js as one script; its functions are those of questions_js."""
    from domethyme_tools.page.bundle import bundled

    texts = {name: (built() / name).read_text(encoding="utf-8") for name in ("domethyme.js", "questions.js")}
    return bundled(texts, "questions.js")


def ask_browser(browser: Any, name: str, *words: Any, module: str = "domethyme.wasm") -> Any:
    """The same in a page of a browser that has the script."""
    def parts(word: Any) -> str:
        if isinstance(word, dict) and "file" in word:
            return f"questions.bytesOf({json.dumps(base64.b64encode(pathlib.Path(word['file']).read_bytes()).decode())})"
        return f"[{', '.join(map(parts, word))}]" if isinstance(word, list) and word and isinstance(word[0], dict) else json.dumps(word)

    given = ", ".join(map(parts, ({"file": built() / module}, *words)))
    return json.loads(browser.value(f"questions_js.then((questions) => questions.{name}({given})).then(JSON.stringify)"))


def with_most_pages(module: pathlib.Path, out: pathlib.Path, pages: int) -> pathlib.Path:
    """The module with a memory that grows to so many pages of 64 KiB at most."""
    text = subprocess.run(["wasm2wat", module], check=True, capture_output=True, text=True).stdout
    head, memory, rest = text.partition("(memory (;0;) ")
    number, _, rest = rest.partition(")")
    assert memory and number.isdigit(), number
    (out.with_suffix(".wat")).write_text(f"{head}{memory}{number} {pages}){rest}", encoding="utf-8")
    subprocess.run(["wat2wasm", out.with_suffix(".wat"), "-o", out], check=True)
    return out


def chunks(values: list[Any], size: int) -> Iterator[list[Any]]:
    return (values[begin : begin + size] for begin in range(0, len(values), size))
