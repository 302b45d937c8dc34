"""Takes the bodies and the proofs of functions out of a crate's texts, so that a check of the others does not come to them.

A function is proved from the contracts of the functions that it calls, and not from their bodies. What is left of one
that is taken out is its contract, a body that says nothing, and a proof that is left open.
"""

import re

# What stands before the braces of a clause of a contract.
CLAUSE = re.compile(r"\b(?:requires|ensures|ghost)\*?(?: +\w+)? *$")
FUNCTION = re.compile(r"^ *(?:pub(?:\([a-z]+\))? )?fn (\w+)", re.M)
BLOCK = re.compile(r"^(?:pub(?:\([a-z]+\))? )?(?:impl|trait)\b", re.M)
TYPE = re.compile(r"^(?:pub(?:\([a-z]+\))? )?(?:struct|enum) (\w+)", re.M)
CYCLE = re.compile(r"^ *#\[cycle\((\w+)\)\]\n", re.M)
# Comments, texts, characters and octets: what may hold a brace that is none.
BLANK = re.compile(r"//[^\n]*|b?\"(?:\\.|[^\"\\])*\"|b?'(?:\\.|[^'\\])'", re.S)


def closed(text, at, opens, closes):
    depth = 0
    for here in range(at, len(text)):
        if text[here] == opens:
            depth += 1
        elif text[here] == closes and text[here - 1] != "-":
            depth -= 1
            if depth == 0:
                return here + 1
    raise ValueError(f"{opens} is not closed: {text[at:at + 80]}")


def body_of(text, at):
    """Returns where the body of the function begins whose name ends there, and where it ends; none where it has none."""
    begin = at
    while (found := re.compile(r"[{;]").search(text, begin)) and found[0] == "{":
        end = closed(text, found.start(), "{", "}")
        if not CLAUSE.search(text, begin, found.start()):
            return found.start(), end
        begin = end
    return None


def last_name(words):
    """Returns the name of a type or a trait, as the prover has it, from its words."""
    name = re.sub(r"<.*", "", words, flags=re.S).split("::")[-1].strip()
    return "Ref" if name.startswith("&") else name


def block_name(text, block):
    """Returns what the prover calls an impl or a trait, and whether that is a type's own name."""
    head = text[block.end():text.index("{", block.end())]
    is_generic = head.startswith("<")
    if is_generic:
        head = head[closed(head, 0, "<", ">"):]
    words = [*re.split(r"\bfor\b", re.split(r"\bwhere\b", head)[0])]
    if len(words) == 1:
        return last_name(words[0]), True
    # An impl for `SetOf<Signer>` has the name of the argument too.
    of = last_name(words[1]) if is_generic else "".join(re.findall(r"\w+", words[1]))
    trait = last_name(words[0])
    # So has one of a trait with an argument, as `From<Fault>` or `Constraint<OidOctets>`; `AsSlice<u8>` ends in `U8`.
    inner = re.search(r"^ *\w+<(\w)(\w*)>", words[0])
    return (of, True) if trait == "Drop" else (of + trait + (inner[1].upper() + inner[2] if inner else ""), False)


def module_of(file):
    return re.sub(r"^(?:lib|main)$", "", file.removeprefix("src/").removesuffix(".rt")).replace("/", "::")


def functions_of(texts):
    """Returns, of each function with a body, its path, and the file, the place of its body and its cycle. One in a trait is left out: each type that
    has it from there needs a proof."""
    texts = {file: BLANK.sub(lambda it: " " * len(it[0]), it) for file, it in texts.items() if file.endswith(".rt")}
    homes = {name: module_of(file) for file, it in texts.items() for name in TYPE.findall(it)}
    found = {}
    for file, text in texts.items():
        blocks = [(it, closed(text, text.index("{", it.end()), "{", "}"), block_name(text, it)) for it in BLOCK.finditer(text)]
        for it in FUNCTION.finditer(text):
            body, module, names = body_of(text, it.end()), module_of(file), [it[1]]
            for block, end, (name, is_own) in blocks:
                if block.start() < it.start() < end:
                    body = None if block[0].endswith("trait") else body
                    names = [name, *names]
                    module = homes.get(name, module) if is_own else module
            above = CYCLE.search(text, text.rfind("\n\n", 0, it.start()) + 1, it.start())
            if body:
                found["::".join([module, *names] if module else names)] = file, body, above and (above.span(), above[1])
    return found


def without_bodies(texts, kept, crate):
    """Returns the texts of a crate's files in which of all functions but those kept only the contracts are left."""
    functions, texts, changes = functions_of(texts), dict(texts), {}
    cycles = {(it[0], it[2][1]) for path, it in functions.items() if path in kept and it[2]}
    for path, (file, body, cycle) in functions.items():
        if path in kept or cycle and (file, cycle[1]) in cycles:
            continue
        changes.setdefault(file, []).append((body, "{\n    loop {}\n}"))
        *above, name = path.split("::")
        folder = "/".join(["proofs", *above, name])
        for it in ("Answers", "Invariants"):
            texts.pop(f"{folder}/{it}.antt", None)
        if cycle:
            changes[file].append((cycle[0], ""))
        # one that calls itself has its proof where a cycle of its name would have it
        for it in [it for it in texts if it.startswith("/".join(["proofs", *above, f"+{cycle[1] if cycle else name}/"]))]:
            del texts[it]
        statement = ".".join([f"Rattle.{crate}.proofs", *above, name, "Statement"])
        texts[f"{folder}/Proof.antt"] = f"use {statement}.{{statement}}\n\npub {name}_spec : {{M : Type 1}} → statement M\n{name}_spec = ?\n"
    for file, found in changes.items():
        for (begin, end), text in sorted(found, reverse=True):
            texts[file] = texts[file][:begin] + text + texts[file][end:]
    return texts
