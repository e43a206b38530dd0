"""Compares mp3edit.h with the exports of the crate: header.py HEADER CRATE. Each function of the header has to be an export, and each export
a function of the header with the same parameters: a number is passed as it is, a slice as a pointer and a length, and an allocator not at all.
"""
import re
import sys
from pathlib import Path

# What a parameter of an export is in C; `Handle` is the type of a session, whatever it is called.
IN_C = {
    "Global": [],
    "&mut Handle": ["mp3edit_session *"],
    "&[u8]": ["const uint8_t *", "size_t"],
    "&mut [u8]": ["uint8_t *", "size_t"],
    "&mut usize": ["size_t *"],
    "usize": ["size_t"],
}
RESULT = {"u8": "uint8_t", "": "void"}


def split(parameters):
    return [it.strip() for it in parameters.split(",") if it.strip()]


def exports(crate):
    """The functions that the crate exports, as C declares them."""
    text = "\n".join(it.read_text(encoding="utf-8") for it in sorted(crate.glob("src/**/*.rt")))
    found = re.findall(r'#\[unsafe\(no_mangle\)\]\s*pub extern "C" fn (\w+)\(([^)]*)\)(?: -> (\w+))?', text)
    made = {}
    for name, parameters, result in found:
        types = [it.partition(":")[2].strip() for it in split(parameters)]
        types = [re.sub(r"^&mut [A-Z]\w+$", "&mut Handle", it) for it in types]
        made[name] = RESULT.get(result, result), [c for it in types for c in IN_C.get(it, [it])]
    return made


def declared(header):
    """The functions that the header declares and doesn't define itself."""
    text = re.sub(r"/\*.*?\*/", "", header.read_text(encoding="utf-8"), flags=re.S)
    found = re.findall(r"^MP3EDIT_NOT_NULL (\w+) (\w+)\(([^)]*)\);", text, re.M)
    made = {}
    for result, name, parameters in found:
        # Without the names of the parameters.
        made[name] = result, [re.sub(r"(?<=[ *])\w+$", "", it).strip() for it in split(" ".join(parameters.split()))]
    return made


def main():
    header, crate = map(Path, sys.argv[1:])
    of_header, of_crate = declared(header), exports(crate)
    wrong = sorted(it for it in {*of_header, *of_crate} if of_header.get(it) != of_crate.get(it))
    for it in wrong:
        print(f"{it}: the header has {of_header.get(it)}, the crate {of_crate.get(it)}")
    if not of_header:
        print("the header declares nothing")
    return 1 if wrong or not of_header else 0


sys.exit(main())
