"""The licence texts of what is linked into the program: the kit's libraries, as far as the kit has a text of them."""
import re

PROGRAM = "perses_main"

# What the linker adds to a program beside the kit's libraries. The kit has no licence texts of these.
RUNTIME = "Scrt1.o, crti.o, crtn.o and libc_nonshared.a of the GNU C library; crtbeginS.o, crtendS.o and libgcc.a of GCC; libos_c.a and liblibc_c.a of the kit"

HEAD = "The libraries that the program is linked with, and the files of this folder that have their licences.\n\n"


def linked(crates, kit):
    """The files of the folder of licences by their names, with a list of all libraries."""
    found = {}
    lines = []
    for library in closure(libraries(crates.read_text()), kit):
        texts = sorted((kit / "rattle" / library).glob("LICENSE*"))
        for text in texts:
            found[f"{library}/{text.name}"] = text.read_bytes()
        lines.append(f"{library}: {', '.join(text.name for text in texts) or 'the kit has no licence text of it'}\n")
    lines.append(f"the linker's own: {RUNTIME}: the kit has no licence text of them\n")
    found["LINKED"] = (HEAD + "".join(lines)).encode()
    return found


def libraries(text):
    """The kit's libraries that the program's crates name in crates.txt."""
    uses = {}
    for line in text.splitlines():
        name, colon, used = line.partition("#")[0].partition(":")
        if colon:
            uses[name.split()[0]] = used.split()
    crates, rest = set(), [PROGRAM]
    while rest:
        name = rest.pop()
        if name not in crates:
            crates.add(name)
            rest += uses.get(name, [])
    return {name for name in crates if name not in uses}


def closure(names, kit):
    """These libraries and those that they use, as the kit's built ones name them."""
    found, rest = set(), ["std", *names]
    while rest:
        name = rest.pop()
        if name not in found:
            found.add(name)
            form = (kit / "rlibs" / f"{name}.rlib" / "format").read_text(errors="replace")
            rest += re.findall(r"^dep (\w+)$", form, re.M)
    return sorted(found)
