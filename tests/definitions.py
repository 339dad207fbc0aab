#!/usr/bin/env python3
"""Checks that docs/DEFINITIONS.md has each definition that the contract of a public function cites."""

import pathlib
import re
import sys

ROOT = pathlib.Path(__file__).resolve().parent.parent
CRATES = {path.name for path in (ROOT / "crates").iterdir()}
IMPORT = re.compile(r"ghost use Rattle\.(\w+)\.specs\.([\w.]+)\.\{([^}]*)\};")
EXPORT = re.compile(r"pub use [\w:]+::(?:\{([^}]*)\}|(\w+));")
BLOCK = re.compile(r"(?:pub )?(trait|impl)(?:<[^>]*>)? (.* for )?(\w+)")
FUNCTION = re.compile(r"(\s*)(pub )?fn (\w+)")
WORD = re.compile(r"[^\W\d][\w'-]*")


def imported(text):
    """The names that a file's clauses take from the specs of these crates, types and constants aside."""
    names = set()
    for crate, module, items in IMPORT.findall(text):
        if crate in CRATES and "declared" not in module.split("."):
            names.update(item.split(" as ")[-1].strip() for item in items.split(","))
    return names


def exported(crate):
    """The names that a library shows, or None for a program, whose public functions all count."""
    if not (crate / "src/lib.rt").exists():
        return None
    names = set()
    for several, one in EXPORT.findall((crate / "src/lib.rt").read_text()):
        names.update(name.strip() for name in (several or one).split(","))
    return names | {function for _, _, function in FUNCTION.findall((crate / "src/lib.rt").read_text())}


def contracts(text, exports):
    """Each public function with the lines of its contract: free ones, and those of a type or trait that is shown."""
    block, of_trait, name, lines = None, False, None, []
    for line in text.splitlines():
        begins = BLOCK.match(line)
        if begins:
            block, of_trait = begins.group(3), begins.group(1) == "trait" or bool(begins.group(2))
        begins = FUNCTION.match(line)
        if begins:
            inner, public, name, lines = begins.group(1), begins.group(2), begins.group(3), []
            shown = block if inner else name
            if not (public or (inner and of_trait)) or (exports is not None and shown not in exports):
                name = None
        if name and line.rstrip().endswith("{") and line.strip() != "{":
            name = None
        elif name and (line.strip() in ("{", "{}") or line.rstrip().endswith("};")):
            yield name, " ".join(lines + [line])
            name = None
        elif name:
            lines.append(line.split("//")[0])


def main():
    documented = set()
    for code in re.findall(r"`([^`]+)`", (ROOT / "docs/DEFINITIONS.md").read_text()):
        documented.update(WORD.findall(code))
    cited, missing = set(), []
    for crate in sorted((ROOT / "crates").iterdir()):
        exports = exported(crate)
        for path in sorted(crate.glob("src/**/*.rt")):
            text = path.read_text()
            names = imported(text)
            for function, contract in contracts(text, exports):
                words = names & set(WORD.findall(contract))
                cited |= words
                missing += [f"{crate.name}: {function} cites {word}" for word in sorted(words - documented)]
    print("\n".join(missing + [f"definitions: {len(cited)} cited, {len(missing)} missing from docs/DEFINITIONS.md"]))
    return 1 if missing or not cited else 0


if __name__ == "__main__":
    sys.exit(main())
