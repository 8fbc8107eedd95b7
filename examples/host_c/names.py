#!/usr/bin/env python3
"""Holds sulkhen.h to the exports: their names, the order and the kinds of their parameters and
results, and the fields of the struct that crosses."""
import pathlib
import re
import sys

HERE = pathlib.Path(__file__).resolve().parents[2] / "crates" / "sulkhen_c"

# how a parameter of an export is declared in C: one or two parameters
KINDS = {
    "alloc: Global": [],
    "&mut Sulkhen": ["sulkhen *"],
    "Sulkhen": ["sulkhen"],
    "&[u8]": ["const uint8_t *", "size_t"],
    "&mut [u8]": ["uint8_t *", "size_t"],
    "&[i32]": ["const int32_t *", "size_t"],
    "&mut [i32]": ["int32_t *", "size_t"],
    "&mut SulkhenSlot": ["sulkhen *"],
    "&mut SulkhenSources": ["sulkhen_sources *"],
    "&mut SourcesSlot": ["sulkhen_sources *"],
    "SulkhenSources": ["sulkhen_sources"],
    "&mut SulkhenEvent": ["sulkhen_event *"],
    "&mut i32": ["int32_t *"],
    "&mut i64": ["int64_t *"],
    "&mut u32": ["uint32_t *"],
    "&mut usize": ["size_t *"],
    "bool": ["bool"],
    "i32": ["int32_t"],
    "u32": ["uint32_t"],
    "i64": ["int64_t"],
    "u64": ["uint64_t"],
    "usize": ["size_t"],
}


def squeezed(text):
    return re.sub(r"\s+", " ", text).strip()


def exports():
    found = {}
    form = r'#\[unsafe\(no_mangle\)\]\s*pub extern "C" fn (\w+)\(([^)]*)\)(?:\s*->\s*(\w+))?'
    for file in sorted((HERE / "src").glob("*.rt")):
        for name, given, result in re.findall(form, file.read_text()):
            kinds = []
            for parameter in filter(None, map(squeezed, given.split(","))):
                kind = parameter.split(": ", 1)[1]
                kinds += [] if kind == "Global" else KINDS[kind]
            found[name] = (kinds, KINDS[result][0] if result else "void")
    return found


def declared(text):
    found = {}
    for result, name, given in re.findall(r"^(\w+) +(sulkhen_\w+)\(([^)]*)\);", text, re.M):
        kinds = []
        for parameter in map(squeezed, given.split(",")):
            kinds.append(squeezed(re.sub(r"(\w+)$", "", parameter)))
        found[name] = (kinds, result)
    return found


def fields(text):
    held = {"u64": "uint64_t", "i32": "int32_t", "u32": "uint32_t"}
    body = re.search(r"pub struct SulkhenEvent \{(.*?)\n\}", text, re.S).group(1)
    return [(name, held[kind]) for name, kind in re.findall(r"pub (\w+): (\w+)", body)]


def c_fields(text):
    body = re.search(r"typedef struct \{([^}]*)\} sulkhen_event;", text).group(1)
    return [(name, kind) for kind, name in re.findall(r"(\w+) (\w+);", body)]


def main():
    header = re.sub(r"/\*.*?\*/", "", (HERE / "sulkhen.h").read_text(), flags=re.S)
    code, c = exports(), declared(header)
    wrong = [name for name in sorted(set(code) | set(c)) if code.get(name) != c.get(name)]
    for name in wrong:
        print(f"{name}: exported {code.get(name)}, declared {c.get(name)}")
    event = (HERE / "../host_embed/src/event.rt").read_text()
    if fields(event) != c_fields(header):
        wrong.append("sulkhen_event")
        print(f"sulkhen_event: {fields(event)}, {c_fields(header)}")
    print(f"{len(code)} exports, {len(wrong)} differ")
    sys.exit(1 if wrong or not code else 0)


main()
