"""The text of a module that was made for x86-64, as one for WebAssembly: another layout and triple, no attribute of that processor, none of its instructions."""
import re

LAYOUT = "e-m:e-p:32:32-p10:8:8-p20:8:8-i64:64-i128:128-n32:64-S128-ni:1:10:20"
TRIPLE = "wasm32-unknown-unknown"
# What the first processor has, and no other; and what is for the checks of an unproved build.
ITS_OWN = re.compile(r'"(probe-stack|stack-probe-size|target-cpu|target-features|frame-pointer)"="[^"]*"|\bsanitize_address\b')
GROUP = re.compile(r"attributes #(\d+) = \{(.*)\}$")
# A proved module chooses bytes by their places, in its check of UTF-8.
SHUFFLE = "@llvm.x86.ssse3.pshuf.b.128"
OURS = "@shuffled_bytes"


class NotForWasm(Exception):
    """An instruction of x86 that no function here stands for."""


def shuffled_bytes():
    """The function that stands for the instruction: of each place the lower four bits say which byte is taken, and its highest that none is."""
    yield f"define internal <16 x i8> {OURS}(<16 x i8> %bytes, <16 x i8> %places) {{"
    whole = "zeroinitializer"
    for at in range(16):
        yield f"  %place{at} = extractelement <16 x i8> %places, i32 {at}"
        yield f"  %low{at} = and i8 %place{at}, 15"
        yield f"  %index{at} = zext i8 %low{at} to i32"
        yield f"  %byte{at} = extractelement <16 x i8> %bytes, i32 %index{at}"
        yield f"  %none{at} = icmp slt i8 %place{at}, 0"
        yield f"  %value{at} = select i1 %none{at}, i8 0, i8 %byte{at}"
        yield f"  %whole{at} = insertelement <16 x i8> {whole}, i8 %value{at}, i32 {at}"
        whole = f"%whole{at}"
    yield f"  ret <16 x i8> {whole}"
    yield "}"


def plain_attributes(found):
    """A group of attributes without those of x86. A group can't be empty."""
    words = " ".join(ITS_OWN.sub("", found[2]).split())
    return f"attributes #{found[1]} = {{ {words or chr(34) + 'plain' + chr(34)} }}"


def retargeted(lines):
    """The lines of the module's text for WebAssembly."""
    shuffles = False
    for line in lines:
        if line.startswith("target datalayout"):
            yield f'target datalayout = "{LAYOUT}"'
        elif line.startswith("target triple"):
            yield f'target triple = "{TRIPLE}"'
        elif line.startswith("attributes #"):
            yield GROUP.sub(plain_attributes, line)
        elif SHUFFLE in line:
            shuffles = True
            if not line.startswith("declare"):
                yield line.replace(SHUFFLE, OURS)
        elif "@llvm.x86." in line:
            raise NotForWasm(line)
        else:
            yield line
    if shuffles:
        yield from shuffled_bytes()
