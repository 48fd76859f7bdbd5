#!/usr/bin/env python3
# SPDX-License-Identifier: MIT OR Apache-2.0
"""contents.py PROCESSOR EPOCH FOLDER: says what a release has linked in.

Writes FOLDER/latchsym.spdx.json (SPDX 2.3). It has the program and both libraries with their
checksums, and what is linked into each: the kit's crates with versions and licences, and what comes
from the C library and from gcc. Copies the licence texts of the kit's crates, and that of glibc, to
FOLDER/licences. The kit says in the READMEs of its crates what they are ports of. A crate that the
kit has without a licence text is declared to have none (NONE), and nothing is concluded.
"""
import datetime
import hashlib
import json
import os
import re
import shutil
import subprocess
import sys

import crates
from crates import TOP
NOBODY_SAYS = "NOASSERTION"
NONE = "NONE"
NOTICE = "Permission is hereby granted, free of charge"


def read(path):
    with open(path, encoding="utf-8") as file:
        return file.read()


def said(*words):
    return subprocess.check_output(words, text=True, input="#include <features.h>\n")


def kit_crates(kit, roots):
    """The kit's crates below the repository's, by name."""
    uses = crates.uses_of_crates()
    found = crates.below(
        [*roots, "std"],
        lambda name: uses[name] if name in uses else crates.uses_of_kit_crate(kit, name),
    )
    return sorted(it for it in found if it not in uses)


def package(name, version, licence, copyright=NOBODY_SAYS, **more):
    return {
        "SPDXID": f"SPDXRef-{name.replace('_', '-')}",
        "name": name,
        "versionInfo": version,
        "downloadLocation": NOBODY_SAYS,
        "filesAnalyzed": False,
        "licenseConcluded": licence,
        "licenseDeclared": licence,
        "copyrightText": copyright,
        **more,
    }


def built(folder, path, licence, copyright):
    """A file of the release with its checksums."""
    with open(f"{folder}/{path}", "rb") as file:
        content = file.read()
    return {
        "SPDXID": f"SPDXRef-{path.replace('/', '-')}",
        "fileName": f"./{path}",
        "fileTypes": ["BINARY"],
        "checksums": [
            {"algorithm": name.upper(), "checksumValue": hashlib.new(name, content).hexdigest()}
            for name in ("sha1", "sha256")
        ],
        "licenseConcluded": licence,
        "licenseInfoInFiles": [NOBODY_SAYS],
        "copyrightText": copyright,
    }


def own_package(folder, name, line):
    """A crate that the kit has without a licence text."""
    paths = [f"{at}/{it}" for at, _, files in sorted(os.walk(f"{folder}/src")) for it in sorted(files)]
    noted = [os.path.relpath(it, folder) for it in paths if NOTICE in read(it)]
    nothing = NOBODY_SAYS if noted else NONE
    about = f"a crate of {line}, which has no licence text for it; its licence is for the makers of the kit to name"
    about += "".join(f"; {it} has a notice of the MIT licence" for it in noted)
    return package(name, line, nothing, nothing, licenseConcluded=NOBODY_SAYS, comment=about)


def kit_package(kit, name, line, licences):
    """A crate of the kit's; its licence texts are copied."""
    folder = f"{kit}/rattle/{name}"
    texts = sorted(it for it in os.listdir(folder) if it.startswith("LICENSE"))
    if not texts:
        return own_package(folder, name, line)
    readme = read(f"{folder}/README.md")
    # (clap's README names what it is compared with)
    version = re.search(rf"\b{name}(?:_builder)?`? (\d[\d.]*\d)", readme)[1]
    if re.search(r"\(MIT or Apache.2\.0", readme) or len(texts) > 1:
        licence = "MIT OR Apache-2.0"
    else:
        licence = "MIT"
        assert NOTICE in read(f"{folder}/{texts[0]}"), name
    os.makedirs(f"{licences}/{name}")
    for it in texts:
        shutil.copyfile(f"{folder}/{it}", f"{licences}/{name}/{it}")
    # (the last text is that of MIT; the text of Apache 2.0 has a template of such a line)
    holders = "\n".join(re.findall(r"^Copyright.*$", read(f"{folder}/{texts[-1]}"), re.M))
    return package(name, version, licence, holders or NONE, comment=f"a port in Rattle, of {line}")


def distributed_glibc(processor):
    """The version of the glibc that is linked in, as Debian names it, where it is Debian's."""
    name = {"x86_64": "libc6-dev", "aarch64": "libc6-dev-arm64-cross"}[processor]
    words = ["dpkg-query", "--show", "--showformat", "${Version}", name]
    try:
        version = subprocess.run(words, capture_output=True, text=True, check=True).stdout
    except (OSError, subprocess.CalledProcessError):
        return ""
    return f", from Debian's {name} {version}"


def main(processor, epoch, folder):
    kit = os.path.dirname(said("rt", "doc").strip())
    line = said("rt", "version").split()[0]
    version = read(f"{TOP}/VERSION").strip()
    gcc = "gcc" if processor == "x86_64" else f"{processor}-linux-gnu-gcc"
    macros = said(gcc, "-E", "-dM", "-")
    numbers = [re.search(rf"#define {it} (\d+)", macros)[1] for it in ("__GLIBC__", "__GLIBC_MINOR__")]
    glibc = ".".join(numbers)
    holder = "Copyright the latchsym authors"
    whole = package("latchsym", version, "MIT OR Apache-2.0", holder)
    names = {it: kit_crates(kit, [it]) for it in ("latchsym", "latchsym_ffi")}
    crates = sorted({*names["latchsym"], *names["latchsym_ffi"]})
    parts = {it: kit_package(kit, it, line, f"{folder}/licences") for it in crates}
    os.makedirs(f"{folder}/licences/glibc")
    shutil.copyfile(f"{TOP}/packaging/LGPL-2.1", f"{folder}/licences/glibc/LGPL-2.1")
    of_gcc = "GPL-3.0-or-later WITH GCC-exception-3.1"
    where = f"linked into the program alone{distributed_glibc(processor)}"
    parts["glibc"] = package("glibc", glibc, "LGPL-2.1-or-later", comment=where)
    parts["libgcc"] = package("libgcc", said(gcc, "-dumpfullversion").strip(), of_gcc)
    linked = {"bin/latchsym": [*names["latchsym"], "glibc", "libgcc"]}
    for it in ("lib/liblatchsym.a", f"lib/liblatchsym.so.{version}"):
        linked[it] = names["latchsym_ffi"]
    files = {it: built(folder, it, NOBODY_SAYS, holder) for it in linked}
    links = [("SPDXRef-DOCUMENT", "DESCRIBES", it["SPDXID"]) for it in (whole, *files.values())]
    links += [(whole["SPDXID"], "STATIC_LINK", it["SPDXID"]) for it in parts.values()]
    links += [
        (files[file]["SPDXID"], "STATIC_LINK", parts[it]["SPDXID"])
        for file in linked for it in linked[file]
    ]
    parts, files = [*parts.values()], [*files.values()]
    digest = hashlib.sha256(json.dumps([processor, whole, parts, files]).encode()).hexdigest()
    name = f"latchsym-{version}-{processor}"
    made = datetime.datetime.fromtimestamp(int(epoch), datetime.timezone.utc)
    document = {
        "spdxVersion": "SPDX-2.3",
        "dataLicense": "CC0-1.0",
        "SPDXID": "SPDXRef-DOCUMENT",
        "name": name,
        "documentNamespace": f"https://spdx.org/spdxdocs/{name}-{digest}",
        "creationInfo": {
            "created": made.strftime("%Y-%m-%dT%H:%M:%SZ"),
            "creators": ["Tool: latchsym packaging/contents.py"],
        },
        "packages": [whole, *parts],
        "files": files,
        "relationships": [
            {"spdxElementId": a, "relationshipType": kind, "relatedSpdxElement": b}
            for a, kind, b in links
        ],
    }
    with open(f"{folder}/latchsym.spdx.json", "w", encoding="utf-8") as file:
        json.dump(document, file, indent=1, ensure_ascii=False)
        file.write("\n")


if __name__ == "__main__":
    main(*sys.argv[1:])
