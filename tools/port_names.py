#!/usr/bin/env python3
"""Brings the repository's own definitions and lemmas to the spelling of today's Rattle, once, after port.py: words in snake case, types in
camel case. usage: python3 tools/port_names.py, at the top of the checkout.

A name is one that a file of specs/ or proofs/ declares. Where two names would fall together, the definition has the plain name, and the
lemma gets `_lem`, or the name stands in OWN. Names of Rust functions, fields and exported functions are not declared there and stay."""

import collections
import os
import re

# (file, name): the new name, where the rule gives one that is taken. Without a file, whatever declares it.
OWN = {
    ("", "isCount"): "is_slot_count",
    ("", "backWithin"): "is_back_within",
    ("", "tooLong"): "is_too_long",
    ("", "startsOver"): "is_starting_over",
    ("", "frontLen"): "front_len_of",
    ("buffer_pool/specs/Rust", "rust-frame"): "rust_frame_bytes",
    ("buffer_pool/specs/Rust", "front-cleared"): "rust_front_cleared",
    ("buffer_pool/specs/Rust", "reset-on"): "rust_reset_on",
    ("buffer_pool/specs/Rust", "to-alloc"): "rust_to_alloc",
    ("buffer_pool/specs/RustMoves", "reset-moves"): "rust_reset_moves",
    ("", "reserve◌"): "reserve_",
    ("", "Says-of-it"): "SaysOfIt",
    ("", "Of-one"): "OfOne",
    ("", "Of-three"): "OfThree",
    ("", "Looked-at"): "LookedAt",
    ("", "Says-of"): "SaysOf",
    ("", "Shows-of"): "ShowsOf",
    ("", "Last-of"): "LastOf",
}
LEMMAS = """
buffer_pool/proofs/Cut: alloc-layer back-layer front-cleared front-layer front-on front-start head-fits leave-on tail-cleared tail-fits tail-start alloc_on back_on
buffer_pool/proofs/RestLaws: alloc_on back_on front-on leave-on reset-moves reset-on
buffer_pool/proofs/ReserveKept: back_fits to-alloc
buffer_pool/proofs/MovesInside: to-alloc
buffer_pool/proofs/HeapMoves: at-start
buffer_pool/proofs/RustCalls: copied-out take_on
buffer_pool/proofs/RustFunctions: fits_in
buffer_pool/proofs/CallLaws: frame-end new-done
buffer_pool/proofs/Joined: frame-view reservation-view slice-view
buffer_pool/proofs/SliceLaws: front-last
buffer_pool/proofs/DecidingLaws: front-slots
buffer_pool/proofs/SoundTestLaws: front-slots
buffer_pool/proofs/Rules: front-start tail-fits
buffer_pool/proofs/LayerLaws: gone-out
buffer_pool/proofs/BackLaws: head-cleared tail-cleared
buffer_pool/proofs/SoundParts: start-at
buffer_pool/proofs/ResetLaws: start-moves
book/proofs/Example: two-callers
book/proofs/Serials: no-handle
buffer_pool_c/proofs/ResultLaws: in_bytes
laws/proofs/Bits: bit-and bit-or
replay/proofs/Cases: two-callers-printed
replay/proofs/LineLaws: first-line line-head last_line
replay/proofs/Nearest: even-neighbour
replay/proofs/ShownSmall: held-from
replay/proofs/EventLaws: step-of
trace/proofs/HeaderLaws: in_order
trace/proofs/ReadLaws: no-event
"""

TOKEN = re.compile(r"[^\s(){}\[\],;.«»⌜⌝\"`]+")
DECLARED = re.compile(
    r"^[ \t]*(?:(?:pub|abbrev|unfoldable|mutual) )*(?:(?:record|data) )?([^\s(){}\[\],;.:«»]+)"
    r"(?: \([^:\n]*:[^\n]*?\))*(?: \{[^}]*\})*(?: \([^)]*\))* :(?=\s)",
    re.M,
)
IMPORT = re.compile(r"use Rattle\.(\w+)\.(specs|proofs)\.(\w+)(?:\.\{([^}]*)\}| as (\w+))")


def snake(name):
    name = re.sub(r"(?<=[a-z0-9_])([A-Z])", lambda m: "_" + m.group(1).lower(), name.replace("-", "_"))
    return re.sub("_+", "_", name)


def texts():
    for folder, dirs, names in os.walk("crates"):
        dirs[:] = sorted(d for d in dirs if d != "out")
        for f in sorted(names):
            if f.endswith((".antt", ".rt")):
                yield os.path.join(folder, f)


def module_of(path):
    m = re.fullmatch(r"crates/(\w+/(?:specs|proofs)/\w+)\.antt", path)
    return m.group(1) if m else None


def main():
    lemmas = {}
    for line in LEMMAS.strip().split("\n"):
        module, names = line.split(": ")
        for n in names.split():
            lemmas[module, n] = snake(n) + "_lem"
    modules = collections.defaultdict(set)
    for path in texts():
        if module_of(path):
            with open(path, encoding="utf-8") as f:
                modules[module_of(path)] = set(DECLARED.findall(f.read()))
    declared = set().union(*modules.values())

    def new_name(module, name):
        for key in ((module, name), ("", name)):
            if key in OWN:
                return OWN[key]
        if (module, name) in lemmas:
            return lemmas[module, name]
        if name in declared and re.fullmatch(r"[a-z][a-z0-9]*(?:[A-Z-]|_.*[A-Z-])[A-Za-z0-9_'-]*", name):
            return snake(name)
        return name

    def rename(text, module):
        source, alias = {}, {}
        for m in IMPORT.finditer(text):
            it = f"{m.group(1)}/{m.group(2)}/{m.group(3)}"
            for n in (m.group(4) or "").split(","):
                source[n.strip()] = it
            if m.group(5):
                alias[m.group(5)] = it
        own = modules.get(module, ())

        def word(m):
            name = m.group(0)
            before = re.search(r"([\w'-]+)\.$", text[: m.start()][-80:])
            if before and before.group(1) in alias:
                return new_name(alias[before.group(1)], name)
            if text[: m.start()].endswith(".") and not before:
                return new_name(None, name)
            if before:
                return new_name(None, name)
            return new_name(module if name in own else source.get(name), name)

        return TOKEN.sub(word, text)

    for path in texts():
        with open(path, encoding="utf-8") as f:
            old = f.read()
        text = rename(old, module_of(path))
        if text != old:
            with open(path, "w", encoding="utf-8") as f:
                f.write(text)

    def plain(text):
        return TOKEN.sub(lambda m: new_name(None, m.group(0)), text)

    pages = ["README.md", "NOTICE"] + [os.path.join("docs", f) for f in sorted(os.listdir("docs")) if f.endswith(".md")]
    pages += [os.path.join(d, "README.md") for d in ("oracle", "rust")]
    for path in pages:
        with open(path, encoding="utf-8") as f:
            old = f.read()
        text = re.sub(r"`[^`\n]+`", lambda m: plain(m.group(0)), old)
        if text != old:
            with open(path, "w", encoding="utf-8") as f:
                f.write(text)
    for folder, _, names in sorted(os.walk("edits")):
        for name in sorted(names):
            if name.endswith(".edit"):
                path = os.path.join(folder, name)
                with open(path, encoding="utf-8") as f:
                    old = f.read()
                text = re.sub(r"(?m)^(old|new|after): .*$", lambda m: plain(m.group(0)), old)
                if text != old:
                    with open(path, "w", encoding="utf-8") as f:
                        f.write(text)


main()
