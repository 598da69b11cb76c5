"""An LLVM module of the whole program, made for x86-64, as a WebAssembly module: by the clang and the linker of the kit, and nothing else."""
import subprocess
from pathlib import Path

from narrow import narrowed
from retarget import TRIPLE, retargeted

HERE = Path(__file__).resolve().parent
# Browsers have these since 2021 (Chrome 91, Firefox 89), Safari since 16.4.
FEATURES = ["--no-default-config", "-mbulk-memory", "-msign-ext", "-mnontrapping-fptoint", "-msimd128"]
FOR_C = ["-O2", "-nostdlib", "-ffreestanding", "-fno-builtin", "-Wno-incompatible-library-redeclaration", "-Werror"]
LEVEL = "-O2"
STACK = 8 << 20
# The stack lies below all else, so that one that is too deep reaches below the address 0. That address wraps, to one that must lie beyond the most memory.
MOST_MEMORY = (4 << 30) - (16 << 20)


def call(*words, **how):
    subprocess.run([str(it) for it in words], check=True, **how)


def known_faults(options):
    """The kit's options against known faults of LLVM, but those of x86 alone."""
    pairs = [after for word, after in zip(options, options[1:]) if word == "-mllvm"]
    return [word for it in pairs if "x86" not in it for word in ("-mllvm", it)]


def write_text(clang, module, target):
    """Writes the module as text, for another target. No pass of the compiler runs before."""
    plain = target.with_suffix(".plain.ll")
    call(clang, "-x", "ir", module, "-S", "-emit-llvm", "-O0", "-Xclang", "-disable-llvm-passes", "-o", plain)
    with open(plain, encoding="utf-8") as lines, open(target, "w", encoding="utf-8") as into:
        into.writelines(f"{it}\n" for it in narrowed(retargeted(it.rstrip("\n") for it in lines)))
    plain.unlink()


def compile_c(toolchain, name, to):
    """Compiles one of the files of C here."""
    call(toolchain / "bin/clang", f"--target={TRIPLE}", *FEATURES, *FOR_C, "-c", HERE / f"{name}.c", "-o", to)


def compile_module(toolchain, module, options, room):
    """The bytes of the WebAssembly module. room: a folder for what is between."""
    clang, text, objects = toolchain / "bin/clang", room / "program.ll", [room / f"{it}.o" for it in ("program", "host", "arithmetic")]
    write_text(clang, module, text)
    call(clang, f"--target={TRIPLE}", *FEATURES, LEVEL, *known_faults(options), "-ffunction-sections", "-fdata-sections", "-c", "-x", "ir", text, "-o", objects[0])
    for it in objects[1:]:
        compile_c(toolchain, it.stem, it)
    link(toolchain, objects, room / "program.wasm", "start")
    return (room / "program.wasm").read_bytes()


def compile_arithmetic(toolchain, to):
    """arithmetic.c alone, with its functions for JavaScript to call."""
    compile_c(toolchain, "arithmetic", to.with_suffix(".o"))
    link(toolchain, [to.with_suffix(".o")], to, "__multi3", "__ashlti3", "__lshrti3", "__ashrti3")


def link(toolchain, objects, to, *exported):
    """Links by the kit's linker, which goes by the name that it is called by."""
    words = ["wasm-ld", "-mwasm32", "--no-entry", *(f"--export={it}" for it in exported), "--stack-first", "-z", f"stack-size={STACK}", f"--max-memory={MOST_MEMORY}"]
    call(*words, "--gc-sections", "--strip-all", "-o", to, *objects, executable=toolchain / "bin/ld.lld")
