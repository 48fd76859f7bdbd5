# SPDX-License-Identifier: MIT OR Apache-2.0
"""Makes the wheel of this folder, as PEP 517 asks of a build backend.

The package is Python files alone, so a wheel is a zip of them. Nothing has to be fetched for that,
and `pip install` works without a network. The same files give the same bytes.

In an unpacked release the wheel has the shared library of that release too, with what says of what it
was linked, and is one for its processor. `--config-settings release=FOLDER` names another release, by
an absolute path.
"""

import base64
import gzip
import hashlib
import io
import pathlib
import re
import sys
import tarfile
import zipfile

HERE = pathlib.Path(__file__).parent
EPOCH = (1980, 1, 1, 0, 0, 0)  # the first time that a zip can have
LICENCES = ("LICENSE-APACHE", "LICENSE-MIT")
LIBRARY = "liblatchsym.so.1"
PROCESSORS = {62: "x86_64", 183: "aarch64"}  # by the number in an ELF file


def _release(config_settings):
    """The folder of the release whose library the wheel is to have, or None."""
    named = (config_settings or {}).get("release")
    folder = pathlib.Path(named) if named else HERE.parent
    if all((folder / it).exists() for it in (f"lib/{LIBRARY}", "licences", "latchsym.spdx.json")):
        return folder
    if named:
        sys.exit(f"latchsym: {named} is no unpacked release; name one by an absolute path")
    return None


def _tag(release):
    if not release:
        return "py3-none-any"
    head = (release / "lib" / LIBRARY).read_bytes()[:20]
    # (no symbol of glibc that it asks for is newer than 2.17, which tests/packages.sh looks at)
    return f"py3-none-manylinux_2_17_{PROCESSORS[int.from_bytes(head[18:20], 'little')]}"


def _project():
    """The plain values of pyproject.toml that the metadata repeat, without tomllib of Python 3.11."""
    text = (HERE / "pyproject.toml").read_text(encoding="utf-8")
    values = dict(re.findall(r'^([a-z-]+) = "([^"]*)"$', text, re.MULTILINE))
    values["classifiers"] = re.findall(r'^    "([^"]+ :: [^"]+)",$', text, re.MULTILINE)
    values["keywords"] = ",".join(re.findall(r'"([^"]+)"', re.search(r"^keywords = (.*)$", text, re.MULTILINE)[1]))
    return values


def _linked(release):
    """The licences of what the library of the release has linked in, by their names there."""
    if not release:
        return {}
    files = sorted(it for it in (release / "licences").rglob("*") if it.is_file())
    # (the program alone has glibc in it)
    return {it.relative_to(release).as_posix(): it.read_bytes() for it in files if it.parent.name != "glibc"}


def _metadata(project, release=None):
    licences = [*LICENCES, *_linked(release)]
    lines = [
        "Metadata-Version: 2.1",
        f"Name: {project['name']}",
        f"Version: {project['version']}",
        f"Summary: {project['description']}",
        "Author: the latchsym authors",
        "License: MIT OR Apache-2.0",
        *(f"License-File: {it}" for it in licences),
        f"Keywords: {project['keywords']}",
        *(f"Classifier: {it}" for it in project["classifiers"]),
        f"Requires-Python: {project['requires-python']}",
        "Description-Content-Type: text/markdown",
        "",
        (HERE / "README.md").read_text(encoding="utf-8"),
    ]
    return "\n".join(lines)


def _info(project, release):
    """The files of the .dist-info folder, by name, but for the record."""
    is_pure = "false" if release else "true"
    wheel = f"Wheel-Version: 1.0\nGenerator: latchsym\nRoot-Is-Purelib: {is_pure}\nTag: {_tag(release)}\n"
    files = {
        "METADATA": _metadata(project, release).encode(),
        "WHEEL": wheel.encode(),
        **{f"licenses/{it}": (HERE / it).read_bytes() for it in LICENCES},
        **{f"licenses/{name}": content for name, content in _linked(release).items()},
    }
    if release:
        files["sboms/latchsym.spdx.json"] = (release / "latchsym.spdx.json").read_bytes()
    return files


def _record(path, content):
    digest = base64.urlsafe_b64encode(hashlib.sha256(content).digest()).rstrip(b"=").decode()
    return f"{path},sha256={digest},{len(content)}\n"


def prepare_metadata_for_build_wheel(metadata_directory, config_settings=None):
    project = _project()
    name = f"latchsym-{project['version']}.dist-info"
    folder = pathlib.Path(metadata_directory, name)
    for file, content in _info(project, _release(config_settings)).items():
        (folder / file).parent.mkdir(parents=True, exist_ok=True)
        (folder / file).write_bytes(content)
    return name


def build_wheel(wheel_directory, config_settings=None, metadata_directory=None):
    project = _project()
    release = _release(config_settings)
    info = f"latchsym-{project['version']}.dist-info"
    source = HERE / "src"
    paths = sorted(it for it in (source / "latchsym").iterdir() if it.suffix == ".py" or it.name == "py.typed")
    files = {it.relative_to(source).as_posix(): it.read_bytes() for it in paths}
    if release:
        files[f"latchsym/{LIBRARY}"] = (release / "lib" / LIBRARY).read_bytes()
    files.update((f"{info}/{file}", content) for file, content in _info(project, release).items())
    record = "".join(_record(path, content) for path, content in files.items())
    files[f"{info}/RECORD"] = f"{record}{info}/RECORD,,\n".encode()
    name = f"latchsym-{project['version']}-{_tag(release)}.whl"
    with zipfile.ZipFile(pathlib.Path(wheel_directory, name), "w", zipfile.ZIP_DEFLATED) as wheel:
        for path, content in files.items():
            entry = zipfile.ZipInfo(path, EPOCH)
            entry.external_attr = (0o755 if path.endswith(LIBRARY) else 0o644) << 16
            entry.compress_type = zipfile.ZIP_DEFLATED
            wheel.writestr(entry, content)
    return name


def build_sdist(sdist_directory, config_settings=None):
    project = _project()
    base = f"latchsym-{project['version']}"
    files = {it.name: it.read_bytes() for it in HERE.iterdir() if it.is_file()}
    for folder in ("src/latchsym", "tests"):
        paths = [it for it in (HERE / folder).iterdir() if it.is_file()]
        files.update((f"{folder}/{it.name}", it.read_bytes()) for it in paths)
    files["PKG-INFO"] = _metadata(project).encode()
    packed = io.BytesIO()
    with tarfile.open(fileobj=packed, mode="w", format=tarfile.PAX_FORMAT) as sdist:
        for path, content in sorted(files.items()):
            entry = tarfile.TarInfo(f"{base}/{path}")
            entry.size = len(content)
            sdist.addfile(entry, io.BytesIO(content))
    name = f"{base}.tar.gz"
    pathlib.Path(sdist_directory, name).write_bytes(gzip.compress(packed.getvalue(), mtime=0))
    return name
