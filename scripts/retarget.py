#!/usr/bin/env python3
"""Makes the LLVM text for wasm64 of the text that Rattle wrote for AArch64: scripts/retarget.py FROM TO

Both targets are little-endian, have pointers and sizes of 64 bits, and lay out all types alike. What is changed is the name of the target and its
layout; the attributes of functions, which become those that Rattle writes for wasm64; and each export, which gets the wrapper that Rattle writes for
wasm64: it traps if a call before it trapped. What is not as expected is refused: a function of the processor, assembly, an unknown attribute.
"""

import re
import sys
from pathlib import Path

FROM, TO = "aarch64-unknown-linux-gnu", "wasm64-unknown-unknown"
LAYOUT = "e-m:e-p:64:64-p10:8:8-p20:8:8-i64:64-i128:128-n32:64-S128-ni:1:10:20"
OF_AARCH64 = r'"frame-pointer"="non-leaf" "probe-stack"="inline-asm" "stack-probe-size"="\d+" "target-cpu"="generic"'
OF_WASM = ('"no-builtin-bcmp" "no-builtin-memcmp" "no-builtin-strlen" "probe-stack"="inline-asm" "stack-probe-size"="3072" '
           '"target-cpu"="lime1"')
OF_PROCESSOR = re.compile(r"@llvm\.aarch64\.|(?<!inline-)\basm\b|^module asm|byval|thread_local|\bblockaddress\b", re.M)
LEFT_OF_AARCH64 = re.compile(r'^attributes .*(?:"frame-pointer"|"target-cpu"="generic"|"target-features").*$', re.M)
EXPORT = re.compile(r"^define ((?:noundef )?(?:void|i32)) @(\w+)\((.*?)\) (?:local_unnamed_addr )?#\d+ \{$", re.M)
OTHER_EXPORT = re.compile(r"^define (?!internal )(?!.*fastcc).*@\w+.*$", re.M)
HELPERS = """
declare noundef zeroext i1 @__rattle_enter()
declare void @__rattle_leave()
declare void @__rattle_trap()
"""
WRAPPER = """
define {returns} @{name}({parameters}) #{group} {{
start:
  %spent = call i1 @__rattle_enter()
  br i1 %spent, label %trap, label %run

trap:
  call void @__rattle_trap()
  unreachable

run:
  {keeps}call {kind} @"rattle::export {name}"({arguments})
  call void @__rattle_leave()
  ret {kept}
}}
attributes #{group} = {{ nounwind {attributes} "wasm-export-name"="{name}" }}
"""


class Unexpected(Exception):
    """The text is not such as is understood."""


def replaced(pattern, to, text):
    """Replaces the one line that this pattern matches."""
    text, count = re.subn(pattern, to, text, flags=re.M)
    if count != 1:
        raise Unexpected(f"{count} lines are as {pattern}")
    return text


def argument(parameter):
    """Returns a parameter as an argument: its type and its name."""
    return re.sub(r"^(\S+).* (%\S+)$", r"\1 \2", parameter)


def retargeted(text):
    """Returns the text for wasm64, and how many exports it has."""
    if found := OF_PROCESSOR.search(text):
        raise Unexpected(f"it is of the processor: {found[0]}")
    text = replaced(r'^target datalayout = "e-m:e-[^"]*i64:64-i128:128[^"]*"$', f'target datalayout = "{LAYOUT}"', text)
    text = replaced(rf'^target triple = "{FROM}"$', f'target triple = "{TO}"', text)
    text, changed = re.subn(OF_AARCH64, OF_WASM, text)
    if not changed or LEFT_OF_AARCH64.search(text):
        raise Unexpected(f"attributes: {LEFT_OF_AARCH64.findall(text)[:3]}")
    exports = EXPORT.findall(text)
    group = max(map(int, re.findall(r"^attributes #(\d+)", text, re.M)))
    wrappers = [HELPERS]
    for number, (returns, name, parameters) in enumerate(exports, group + 1):
        text = text.replace(f"define {returns} @{name}(", f'define internal {returns} @"rattle::export {name}"(')
        arguments = ", ".join(map(argument, parameters.split(", "))) if parameters else ""
        kind = returns.removeprefix("noundef ")
        keeps, kept = ("", "void") if kind == "void" else ("%result = ", f"{kind} %result")
        words = {"returns": returns, "kind": kind, "keeps": keeps, "kept": kept, "arguments": arguments}
        wrappers.append(WRAPPER.format(name=name, parameters=parameters, group=number, attributes=OF_WASM, **words))
    if left := OTHER_EXPORT.findall(text):
        raise Unexpected(f"an export of another kind: {left[0]}")
    return text + "".join(wrappers), len(exports)


def main(words):
    if len(words) != 2:
        sys.exit(__doc__)
    try:
        text, count = retargeted(Path(words[0]).read_text(encoding="utf-8"))
    except Unexpected as why:
        sys.exit(f"retarget: {why}")
    Path(words[1]).write_text(text, encoding="utf-8")
    print(f"retarget: {count} exports")


if __name__ == "__main__":
    main(sys.argv[1:])
