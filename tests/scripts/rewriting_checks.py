"""How the text of a module is rewritten for WebAssembly (web/module): what becomes of each form with a pointer, and that a form without a rule is refused."""
import sys

from script_checks import ROOT

sys.path.insert(0, str(ROOT / "web/module"))
from narrow import NoRule, narrowed
from retarget import NotForWasm, retargeted

REWRITTEN = [
    ("  store ptr %a, ptr %b, align 8", "  %narrow.0 = ptrtoint ptr %a to i64|  store i64 %narrow.0, ptr %b, align 8"),
    ("  store ptr @f, ptr %b, align 8", "  %narrow.0 = ptrtoint ptr @f to i64|  store i64 %narrow.0, ptr %b, align 8"),
    ("  %a = load ptr, ptr %b, align 8, !nonnull !1", "  %narrow.0 = load i64, ptr %b, align 8|  %a = inttoptr i64 %narrow.0 to ptr"),
    ("  store i64 %a, ptr %b, align 8", "  store i64 %a, ptr %b, align 8"),
    ("  %a = load { i8, i8 }, ptr %b, align 1", "  %a = load { i8, i8 }, ptr %b, align 1"),
    ("  %a = load { i8, ptr }, ptr %b, align 8",
     "  %narrow.0 = getelementptr i8, ptr %b, i64 0|  %narrow.0.value = load i8, ptr %narrow.0, align 1|  %narrow.0.whole = insertvalue { i8, ptr } poison, i8 %narrow.0.value, 0"
     "|  %narrow.1 = getelementptr i8, ptr %b, i64 8|  %narrow.1.value = load i64, ptr %narrow.1, align 8|  %narrow.1.pointer = inttoptr i64 %narrow.1.value to ptr"
     "|  %a = insertvalue { i8, ptr } %narrow.0.whole, ptr %narrow.1.pointer, 1"),
    ("  %a = alloca ptr, align 8", "  %a = alloca i64, align 8"),
    ("  %a = ptrtoaddr ptr %b to i64", "  %a = ptrtoint ptr %b to i64"),
    ("  %a = getelementptr inbounds nuw i8, ptr %b, i64 %c", "  %a = getelementptr inbounds nuw i8, ptr %b, i64 %c"),
    ("  %a = call ptr @f(ptr %b)", "  %a = call ptr @f(ptr %b)"),
    ('@a = private constant [5 x i8] c"ptr a", align 1', '@a = private constant [5 x i8] c"ptr a", align 1'),
    ('@a = private constant <{ ptr, [5 x i8], ptr }> <{ ptr getelementptr (i8, ptr @b, i64 16), [5 x i8] c"ptr n", ptr null }>, align 8',
     '@a = private constant <{ ptr, i32, [5 x i8], ptr, i32 }> <{ ptr getelementptr (i8, ptr @b, i64 16), i32 0, [5 x i8] c"ptr n", ptr null, i32 0 }>, align 8'),
]
REFUSED = [
    "  store volatile ptr %a, ptr %b, align 8", "  store { ptr, i64 } %a, ptr %b, align 8", "  store <2 x ptr> %a, ptr %b, align 16", "  %a = load volatile ptr, ptr %b, align 8",
    "  %a = load [2 x ptr], ptr %b, align 8", "  %a = load { { ptr, i8 }, i8 }, ptr %b, align 8", "  %a = load atomic ptr, ptr %b acquire, align 8", "  %a = alloca [2 x ptr], align 8",
    "  %a = alloca { ptr, i64 }, align 8", "  %a = getelementptr ptr, ptr %b, i64 1", "  %a = getelementptr inbounds { i8, i64 }, ptr %b, i64 1", "  %a = cmpxchg ptr %b, ptr %c, ptr %d acquire acquire",
    "  %a = atomicrmw xchg ptr %b, ptr %c acquire", "  call void @f(ptr byval(i64) %a)", "@a = private constant ptr @b", "@a = private constant [2 x ptr] [ptr @b, ptr null]",
    "define void @f(ptr sret({ i64, i64 }) %a) {",
]


def rewritten(line):
    try:
        return "|".join(narrowed([line])).replace("\n", "|")
    except NoRule:
        return "refused"


def check_rewriting():
    """Returns how many lines were tried, and a line for each that is not rewritten as it should be."""
    tried = [(line, rewritten(line), wanted) for line, wanted in [*REWRITTEN, *((line, "refused") for line in REFUSED)]]
    tried.append(("the head", list(retargeted(HEAD)), WANTED_HEAD))
    try:
        list(retargeted(["  %a = call i32 @llvm.x86.sse2.pmovmskb.128(<16 x i8> %b)"]))
        tried.append(("another instruction", "taken", "refused"))
    except NotForWasm:
        tried.append(("another instruction", "refused", "refused"))
    return len(tried), [f"rewriting, {line}: {found!r}, wanted {wanted!r}" for line, found, wanted in tried if found != wanted]


HEAD = [
    'target triple = "x86_64-unknown-linux-gnu"', "define i32 @main() #0 {", 'attributes #0 = { "probe-stack"="inline-asm" "target-cpu"="x86-64" }', 'attributes #1 = { nounwind "target-cpu"="x86-64" }',
    "declare <16 x i8> @llvm.ctpop.v16i8(<16 x i8>)",
]
WANTED_HEAD = [
    'target triple = "wasm32-unknown-unknown"', "define i32 @main() #0 {", 'attributes #0 = { "plain" }', "attributes #1 = { nounwind }", "declare <16 x i8> @llvm.ctpop.v16i8(<16 x i8>)",
]
