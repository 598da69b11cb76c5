"""The page and its module, from the sources that are here."""
import base64
import gzip
import json
import sys
import tempfile
from pathlib import Path

WEB = Path(__file__).resolve().parents[1]
ROOT = WEB.parent
sys.path[:0] = [str(WEB / "page"), str(ROOT / "tools")]
from assemble import page_of
from compiling import compile_module
from keep import NoModule
from modules import kit_folder, proved_module, unproved_module
from sources import sum_of

PAGE = ROOT / "cpx.html"
MOST_BYTES = 3_000_000


def version():
    return (ROOT / "VERSION").read_text().strip()


def make_module(is_proved, out):
    """Makes the WebAssembly module in a folder, with what is told of it."""
    kit = kit_folder()
    about = {"version": version(), "sources": sum_of("cpx_show"), "proved": is_proved}
    with tempfile.TemporaryDirectory(prefix="cpx-web-") as room:
        room = Path(room)
        module, options = (proved_module if is_proved else unproved_module)(kit, ROOT / "crates/cpx_show", room)
        if sum_of("cpx_show") != about["sources"]:
            raise NoModule("the sources have changed meanwhile")
        print(f"the module has {module.stat().st_size >> 20} megabytes, and is compiled for the browser: two minutes of a processor", flush=True)
        program = compile_module(kit / "toolchain", module, options, room)
    out.mkdir(parents=True, exist_ok=True)
    (out / "program.wasm").write_bytes(program)
    (out / "program.json").write_text(json.dumps(about) + "\n")


def make_page(out):
    """The page of the module that a folder has."""
    if not (out / "program.wasm").is_file():
        raise NoModule(f"there is no {out.relative_to(ROOT)}/program.wasm: web/build makes it")
    about = json.loads((out / "program.json").read_text())
    packed = gzip.compress((out / "program.wasm").read_bytes(), 9, mtime=0)
    made = page_of(base64.b64encode(packed).decode(), about)
    print(f"{len(made)} bytes; the module has {len(packed)} of them, before base64; version {about['version']}, {'proved' if about['proved'] else 'not proved'}", flush=True)
    if len(made) > MOST_BYTES:
        raise NoModule(f"a page may have {MOST_BYTES} bytes")
    return made
