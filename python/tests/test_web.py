"""The proved library as WebAssembly (packaging/build-web): how it is built, and its answers beside `routecli route` and the library."""
import ctypes
import importlib.machinery
import importlib.util
import json
import pathlib
import random
import re
import subprocess
import sys

import pytest
from browser import Browser
from kit import networks
from tool_case import ROOT
from web_case import ask_browser, ask_node, build, built, script, with_most_pages
from web_llvm import functions, module_of

import domethyme
from domethyme.library import Handle, load_library
from domethyme.router import Router

pytestmark = [pytest.mark.needs("nodejs"), pytest.mark.needs("wasm-opt"), pytest.mark.needs("wasm-objdump"),
              pytest.mark.xdist_group("web"), pytest.mark.timeout(3600)]  # (the library is built, which took 15 minutes once)

WEB = ROOT / "packaging/web"
NODES, PAIRS = 2500, 10_000


def random_network() -> tuple[int, list[tuple[int, int, int]]]:
    """A network of some islands, in which many paths have the same length."""
    draw = random.Random(3)
    arcs = [(begin, min(NODES - 1, max(0, begin + draw.randrange(-40, 41))), draw.randrange(1, 9)) for begin in range(NODES) for _ in range(2)]
    return NODES, arcs


def grid_network() -> tuple[int, list[tuple[int, int, int]]]:
    """A grid of 50 by 50, with weights up to the largest."""
    draw, side = random.Random(4), 50
    ends = [(at, at + step) for at in range(side * side) for step in (1, side) if (at + 1) % side or step > 1]
    both = [pair for begin, end in ends if end < side * side for pair in ((begin, end), (end, begin))]
    return side * side, [(begin, end, draw.choice((1, 5, 1000, networks.HEAVIEST))) for begin, end in both]


@pytest.fixture(scope="module", params=[random_network, grid_network], ids=lambda make: make.__name__)
def network(request, tmp_path_factory):
    """A folder with a graph, n.gr, its hierarchy, n.rch, 10,000 pairs and what `routecli route` prints for them."""
    folder = tmp_path_factory.mktemp("network")
    nodes, arcs = request.param()
    (folder / "n.gr").write_text(networks.text_of(nodes, arcs))
    domethyme.prepare(folder / "n.gr", folder / "n.rch", workers=1).close()
    draw = random.Random(5)
    pairs = [(draw.randrange(nodes) + 1, draw.randrange(nodes) + 1) for _ in range(PAIRS)]
    (folder / "pairs.json").write_text(json.dumps(pairs))
    (folder / "n.p2p").write_text(networks.pairs_text(pairs))
    with open(folder / "answers", "wb") as answers:
        subprocess.run([domethyme.find_program(), "route", folder / "n.rch", folder / "n.p2p"], stdout=answers, check=True)
    return folder


@pytest.fixture(scope="module")
def village(tmp_path_factory):
    """The hierarchy of a small network, of 60 nodes."""
    folder = tmp_path_factory.mktemp("village")
    draw = random.Random(6)
    arcs = [(at, (at + step) % 60, draw.randrange(1, 50)) for at in range(60) for step in (1, 7, 59)]
    (folder / "n.gr").write_text(networks.text_of(60, arcs))
    domethyme.prepare(folder / "n.gr", folder / "n.rch", workers=1).close()
    return folder / "n.rch"


def lines_of(folder: pathlib.Path) -> list[str]:
    return [line for line in (folder / "answers").read_text().splitlines() if line[0] in "rn"]


def test_both_forms_are_small_and_the_same_bytes_again(tmp_path):
    again = build(tmp_path / "again")
    names = sorted(path.name for path in again.iterdir())
    assert names == ["LICENSE-APACHE", "LICENSE-MIT", "README.md", "domethyme.d.ts", "domethyme.js", "domethyme.wasm", "domethyme64.wasm", "package.json"]
    for name in names:
        assert (again / name).read_bytes() == (built() / name).read_bytes(), name
    assert (again / "domethyme.wasm").stat().st_size < 100_000
    package = json.loads((again / "package.json").read_text())
    program = subprocess.run([domethyme.find_program(), "--version"], capture_output=True, text=True, check=True).stdout
    assert program.startswith(f"routecli {package['version']},")
    assert {package["exports"]["."][kind].removeprefix("./") for kind in ("types", "default")} <= set(names)


def test_the_module_has_the_calls_and_imports_nothing():
    for module in ("domethyme.wasm", "domethyme64.wasm"):
        text = subprocess.run(["wasm-objdump", "-x", built() / module], capture_output=True, text=True, check=True).stdout
        assert "Import[" not in text and "Table[" not in text and "Elem[" not in text
        exported = set(re.findall(r'-> "(\w+)"', text))
        calls = {f"domethyme_{name}" for name in "open nodes length route between lengths table reach text close".split()}
        assert exported == calls | {"web_take", "web_give", "memory", "__heap_base"}
    shown = subprocess.run([WEB / "stack_depth", "4096", built() / "domethyme64.wasm"], capture_output=True, text=True, check=True).stdout
    assert 0 < int(re.search(r"at most (\d+) bytes", shown)[1]) <= 4096
    assert subprocess.run([WEB / "stack_depth", "100", built() / "domethyme.wasm"], check=False, stdout=subprocess.DEVNULL).returncode == 1


def test_the_types_declare_each_call():
    code, types = ((built() / name).read_text() for name in ("domethyme.js", "domethyme.d.ts"))
    for name in ("open", "text", "length", "route", "between", "lengths", "table", "reach", "close"):
        assert re.search(rf"^  {name}\(", code, re.M) and re.search(rf"^  {name}\(", types, re.M), name
    codes = set(re.findall(r'\d+: "(\w+)"', code))
    assert len(codes) == 24 and codes <= set(re.findall(r'"(\w+)"', types))


def loaded(name: str):
    """A script of packaging/web as a module."""
    loader = importlib.machinery.SourceFileLoader(name, str(WEB / name))
    spec = importlib.util.spec_from_loader(name, loader)
    assert spec is not None
    module = importlib.util.module_from_spec(spec)
    sys.dont_write_bytecode, before = True, sys.dont_write_bytecode
    loader.exec_module(module)
    sys.dont_write_bytecode = before
    return module


HEAD = 'target datalayout = "e-m:e-p270:32:32-p271:32:32-p272:64:64-i64:64-i128:128-f80:128-n8:16:32:64-S128"\ntarget triple = "x86_64-unknown-linux-gnu"\n'


def retargeted(text: str) -> subprocess.CompletedProcess[str]:
    return subprocess.run([WEB / "for_wasm64"], input=text, capture_output=True, text=True, check=False)


def test_retargeting():
    attributes = 'attributes #0 = { nounwind "probe-stack"="inline-asm" "stack-probe-size"="3072" "target-cpu"="x86-64-v2" }'
    found = retargeted(f'{HEAD}  call void @llvm.x86.sse2.pause()\n  %r = call i64 @"of phi and asm"(i64 1)\n{attributes}\n')
    assert (found.returncode, found.stderr) == (0, "")
    assert found.stdout == (
        'target datalayout = "e-m:e-p:64:64-p10:8:8-p20:8:8-i64:64-i128:128-n32:64-S128-ni:1:10:20"\ntarget triple = "wasm64-unknown-unknown"\n'
        '  %r = call i64 @"of phi and asm"(i64 1)\n'
        'attributes #0 = { nounwind "no-builtin-bcmp" "no-builtin-memcmp" "no-builtin-strlen" "target-cpu"="lime1" }\n'
    )


@pytest.mark.parametrize("line", [
    'target triple = "aarch64-unknown-linux-gnu"', "  %r = call i32 @llvm.x86.sse42.crc32.32.8(i32 %a, i8 %b)", '  call void asm sideeffect "nop", ""()',
    'module asm "nop"', "@x = internal thread_local global i64 0", "  %r = phi i64 [ 0, %a ], [ 1, %b ]", "  store x86_fp80 %a, ptr %b",
    "  fence acquire", '  fence syncscope("singlethread") seq_cst', "  musttail call void @f()", "  %r = alloca inalloca i64",
    'attributes #0 = { nounwind "target-features"="+avx" }', 'attributes #0 = { "frame-pointer"="all" }', "  %r = blockaddress(@f, %b)",
])
def test_retargeting_refuses_what_it_does_not_know(line):
    found = retargeted(f"{HEAD}{line}\n")
    assert found.returncode == 1 and found.stderr.startswith("for_wasm64: line 3 has "), found.stderr
    assert found.stderr.count("\n") == 1


def test_retargeting_wants_both_targets():
    assert retargeted(HEAD.partition("\n")[0] + "\n").returncode == 1


def test_retargeting_beside_the_toolchains_own_module(tmp_path):
    """Of a crate without a heap, which the toolchain compiles for both targets: all functions are the same."""
    source = (pathlib.Path(__file__).parent / "web/plain.txt").read_text()
    ours, theirs = retargeted(module_of(tmp_path, source, "x86")), module_of(tmp_path, source, "wasm")
    assert ours.returncode == 0, ours.stderr
    targets = [re.findall("^target .*$", text, re.M) for text in (ours.stdout, theirs)]
    assert targets[0] == targets[1] and len(targets[0]) == 2
    found, wanted = functions(ours.stdout), functions(theirs)
    # (the toolchain's exports are internal functions behind a guard, which calls.c has)
    assert set(wanted) - set(found) == {f'"rattle::export plain_{name}"' for name in ("find", "product", "place", "same")}
    assert set(found) <= set(wanted) and len(found) > 60
    assert {name for name in found if found[name] != wanted[name]} == set()
    unprobed = re.sub(r'"(probe-stack|stack-probe-size)"="[^"]*" ?', "", theirs)
    attributes = [re.search(r"^attributes #0 = .*$", text, re.M)[0] for text in (ours.stdout, unprobed)]
    assert attributes[0] == attributes[1]


def test_routes_and_lengths_are_the_programs(network):
    found = ask_node("routes", {"file": str(network / "n.rch")}, json.loads((network / "pairs.json").read_text()))
    assert found["differing"] == 0
    assert len(found["lines"]) == PAIRS and found["lines"] == lines_of(network)


@pytest.mark.needs("chromium")
@pytest.mark.parametrize("module", ["domethyme.wasm", "domethyme64.wasm"])
def test_routes_and_lengths_in_a_browser(network, module):
    browser = Browser()
    try:
        browser.value(script().replace("const questions_js", "globalThis.questions_js"))
        found = ask_browser(browser, "routes", {"file": network / "n.rch"}, json.loads((network / "pairs.json").read_text()), module=module)
    finally:
        browser.close()
    assert found["differing"] == 0 and found["lines"] == lines_of(network)


def test_other_calls_are_the_librarys(network):
    router = Router((network / "n.rch").read_bytes(), "n.rch")
    draw, nodes = random.Random(8), router.nodes
    def some(most):
        return [{"node": draw.randrange(nodes), "length": draw.randrange(100), "arcs": 0} for _ in range(draw.randrange(1, most))]

    asked = {
        "between": [(some(4), some(4)) for _ in range(200)], "sources": draw.sample(range(nodes), 9), "targets": draw.sample(range(nodes), 30),
        "pairs": [(draw.randrange(nodes), draw.randrange(nodes)) for _ in range(100)], "limits": ["0", "12", "3000", str(2**62), None],
    }
    found = ask_node("others", {"file": str(network / "n.rch")}, asked)
    assert found["nodes"] == nodes
    for (starts, ends), answer in zip(asked["between"], found["between"], strict=True):
        wanted = router.between(*([(each["node"], each["length"]) for each in side] for side in (starts, ends)))
        assert (wanted is None) == (answer is None)
        if wanted is not None:
            length, start, end, path = answer
            assert (int(length), starts[start]["node"], ends[end]["node"], path) == (wanted.length, wanted.source, wanted.target, wanted.nodes)

    def text(length):
        return str((1 << 64) - 1 if length is None else length)

    assert found["table"] == [text(router.length(source, target)) for source in asked["sources"] for target in asked["targets"]]
    assert found["lengths"] == [text(router.length(*pair)) for pair in asked["pairs"]]
    least = [[router.length(start, node) for node in range(nodes)] for start in (0, 1)]
    sums = [min((length + added for length, added in zip(both, (3, 0)) if length is not None), default=None) for both in zip(*least)]
    for limit, row in zip(asked["limits"], found["reach"], strict=True):
        assert row == [text(None if length is None or limit is not None and length > int(limit) else length) for length in sums]


def native_code(data: bytes) -> int:
    """What the native library says of a file's bytes."""
    handle = Handle()
    code = load_library().domethyme_open(ctypes.byref(handle), data, len(data))
    load_library().domethyme_close(ctypes.byref(handle))
    return int(code)


def test_broken_files_are_refused_by_the_librarys_codes(village, tmp_path):
    data, draw = village.read_bytes(), random.Random(9)
    broken = [data[:length] for length in draw.sample(range(len(data)), 200)]
    for bit in draw.sample(range(8 * len(data)), 300):
        turned = bytearray(data)
        turned[bit // 8] ^= 1 << bit % 8
        broken.append(bytes(turned))
    broken += [data + b"\0", b""]
    for number, each in enumerate(broken):
        (tmp_path / f"{number}").write_bytes(each)
    found = ask_node("opened", {"file": str(village)}, [{"file": str(tmp_path / f"{number}")} for number in range(len(broken))])
    wanted = [native_code(each) for each in broken]
    assert found == {"codes": wanted, "isSame": True}
    assert set(wanted[:200]) == {36} and len(set(wanted)) > 6


def test_wrong_arguments(village):
    nodes = Router(village.read_bytes(), "n").nodes
    assert nodes == 60
    assert ask_node("wrong", {"file": str(village)}) == {
        "fraction": "RangeError", "negative": "RangeError", "large": "RangeError", "text": "TypeError", "big": "TypeError", "nothing": "TypeError",
        "range": "NodeRange 3", "last": "NodeRange 3", "odd": "RangeError", "in": "NodeRange 3", "none": "0",
        "limit": "BadLimit 8", "beyond": "RangeError", "below": "RangeError", "cost": "SeedCost 7", "arcs": "SeedCost 7", "starts": "null",
        "seed": "TypeError", "closed": "NoHandle 2", "open": "TypeError", "empty": "Truncated 36",
        "text36": "the bytes end too early", "text99": "a code that no call returns",
    }


@pytest.mark.parametrize("pages", [20, 24, 40])
def test_memory_that_can_not_grow(village, tmp_path, pages):
    module = with_most_pages(built() / "domethyme.wasm", tmp_path / "full.wasm", pages)
    found = ask_node("full", {"file": str(village)}, 10_000, module=module)
    assert found["ends"] == "OutOfMemory 5" and found["opened"] > 1
    assert found["lengths"] == [str(Router(village.read_bytes(), "n").length(0, 2))]
    assert found["again"] == "60" and found["memory"] <= pages << 16


def test_open_and_close_thirty_times(network):
    memory = ask_node("repeated", {"file": str(network / "n.rch")}, 30)
    assert memory[1:] == [memory[1]] * 29 and memory[1] < 8 << 20


def test_no_call_after_a_trap(village):
    found = ask_node("trapped", {"file": str(village)})
    assert found == {"first": "ModuleTrapped", "later": ["ModuleTrapped"] * 5, "raw": ["trap"] * 3, "isTrap": "ModuleTrapped"}


def test_the_heap(tmp_path):
    heap = tmp_path / "heap"
    words = ["-O1", "-Wall", "-Wextra", "-Werror", "-fsanitize=undefined,address", "-fno-sanitize-recover", "-DHEAP_TEST", "-I", str(WEB)]
    sources = [str(pathlib.Path(__file__).parent / "web/heap.c"), str(WEB / "heap.c")]
    subprocess.run(["gcc", *words, *sources, "-o", str(heap)], check=True)
    ran = subprocess.run([heap, "100000"], capture_output=True, text=True, check=False)
    assert ran.returncode == 0 and re.fullmatch(r"100000 calls, [1-9]\d* refused\n", ran.stdout), ran.stdout + ran.stderr
