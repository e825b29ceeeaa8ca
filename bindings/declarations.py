"""Compares what the C header, the Rust crate and the Python module declare with the library's source: of each function the name,
the order and widths of the arguments and the width of the answer; the numbers of the refusals; the sizes that are promised, and
those of windows. Prints what differs, and fails if something does.

    python3 bindings/declarations.py
"""

import re
import sys
from pathlib import Path

ROOT = Path(__file__).resolve().parents[1]

C_TYPES = {
    "uint8_t": "u8",
    "int8_t": "i8",
    "uint16_t": "u16",
    "int16_t": "i16",
    "uint32_t": "u32",
    "int32_t": "i32",
    "uint64_t": "u64",
    "int64_t": "i64",
    "size_t": "usize",
    "ergo_entry": "Entry",
}


def text_of(pattern: str) -> str:
    return "".join(path.read_text() for path in sorted(ROOT.glob(pattern)))


def functions(text: str, introduced: str) -> dict[str, str]:
    """Functions of Rattle, of Rust or of the Python module's list. An answer of usize can be minus a number: it is i64."""
    found = {}
    for name, arguments, answer in re.findall(introduced + r"\s*(ergo_\w+)\(([^)]*)\)\s*->\s*(\w+)", text):
        listed = [" ".join(argument.split()) for argument in arguments.split(",") if argument.strip()]
        found[name] = f"({', '.join(listed)}) -> {'i64' if answer == 'usize' else answer}"
    return found


def c_functions(text: str) -> dict[str, str]:
    found = {}
    for answer, name, arguments in re.findall(r"^(\w+) (ergo_\w+)\(([^)]*)\);", text, re.MULTILINE):
        found[name] = f"({', '.join(c_arguments(arguments))}) -> {C_TYPES[answer]}"
    return found


def c_arguments(text: str) -> list[str]:
    """A pointer and the length after it are a slice."""
    parts = [re.fullmatch(r"\s*(const )?(\w+) (\*?)(\w+)\s*", argument).groups() for argument in text.split(",")]
    listed = []
    while parts:
        constant, c_type, pointer, name = parts.pop(0)
        if not pointer:
            listed.append(f"{name}: {C_TYPES[c_type]}")
        elif parts and parts.pop(0) == (None, "size_t", "", f"{name}_len"):
            listed.append(f"{name}: &{'' if constant else 'mut '}[{C_TYPES[c_type]}]")
        else:
            listed.append(f"{name} without a length")
    return listed


def constant_name(variant: str) -> str:
    return re.sub(r"(?<!^)([A-Z])", r"_\1", variant).upper()


def library_refusals(text: str) -> dict[str, str]:
    return {constant_name(name): number for name, number in re.findall(r"^    (\w+) = (\d+),", text, re.MULTILINE)}


def rust_refusals(text: str) -> dict[str, str]:
    listed = re.findall(r"^    \(\s*(\d+),\s*(\w+)(?: \{ id: 0 \})?,\s*\"", text, re.MULTILINE)
    return {constant_name(name): number for number, name in listed}


def constants(text: str, pattern: str) -> dict[str, str]:
    """Numbers by name. Digits may have underscores between them."""
    return {name: number.replace("_", "") for name, number in re.findall(pattern, text, re.MULTILINE)}


def compare(what: str, expected: dict[str, str], declared: dict[str, str]) -> int:
    names = [name for name in sorted(expected.keys() | declared.keys()) if expected.get(name) != declared.get(name)]
    for name in names:
        print(f"{what}: {name} is {declared.get(name)}, and {expected.get(name)} in the library")
    print(f"{what}: {len(expected)} declarations, {len(names)} differ")
    return len(names) if expected else 1


def main() -> int:
    header = text_of("bindings/c/ergo_voting.h")
    module = text_of("bindings/python/ergo_voting.py")
    exported = functions(text_of("crates/exports_c/src/*.rt"), 'pub extern "C" fn')
    refusals = library_refusals(text_of("crates/codec/src/refusal.rt"))
    promised = re.findall(r"ensures size \{ length \((\w+)_bytes \w+\) ≡ (\d+) \}", text_of("crates/wire/src/*.rt"))
    sizes = {f"{name.upper()}_SIZE": size for name, size in promised}
    in_source = constants(text_of("crates/support/src/window.rt"), r"^pub const (\w+): \w+ = (\d+);")
    windows = {f"WINDOW_{name}": number for name, number in in_source.items()}
    header_sizes = constants(header, r"^#define ERGO_(\w+) (\d+)u")
    module_sizes = constants(module, r"^(\w+) = ([\d_]+)")
    crate_windows = constants(text_of("bindings/rust/src/window.rs"), r"^(?:pub )?const (\w+): \w+ = ([\d_]+);")
    differ = [
        compare("functions in C", exported, c_functions(header)),
        compare("functions in Rust", exported, functions(text_of("bindings/rust/src/ffi.rs"), "fn")),
        compare("functions in Python", exported, functions(module, "")),
        compare("refusals in C", refusals, dict(re.findall(r"^    ERGO_(\w+) = (\d+)", header, re.MULTILINE))),
        compare("refusals in Rust", refusals, rust_refusals(text_of("bindings/rust/src/refusal.rs"))),
        compare("refusals in Python", refusals, dict(re.findall(r"^    ([A-Z_]+) = \(?\s*(\d+),", module, re.MULTILINE))),
        compare("sizes in C", sizes, {name: header_sizes.get(name) for name in sizes}),
        compare("sizes in Python", sizes, {name: module_sizes.get(name) for name in sizes}),
        compare("windows in C", windows, {name: header_sizes.get(name) for name in windows}),
        compare("windows in Rust", windows, crate_windows),
        compare("windows in Python", windows, {name: module_sizes.get(name) for name in windows}),
    ]
    return 1 if any(differ) else 0


if __name__ == "__main__":
    sys.exit(main())
