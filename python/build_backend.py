"""Builds the package for pip (PEP 517 and 660), with Python's own modules and a C compiler.

The compiler is $CC, or the one that Python was built with. `ecow.h` and `libecow.a` are taken from
$ECOW_HOME, or else from the folder above this one: from its `include`, and its `lib` or `bin`. The
version and the licences stand in that folder too. A source distribution has all of these itself, so
it builds alone."""

from __future__ import annotations

import base64
import gzip
import hashlib
import io
import os
import pathlib
import shlex
import shutil
import subprocess
import sysconfig
import tarfile
import tempfile
import tomllib
import zipfile

HERE = pathlib.Path(__file__).resolve().parent
# The first moment that a zip file can name: files don't tell when they were built.
EPOCH = (1980, 1, 1, 0, 0, 0)
LICENSES = ("LICENSE-APACHE", "LICENSE-MIT")
MODULE = "_core.abi3.so"


def fail(message):
    raise SystemExit(f"ecow: {message}")


def find(what, *places):
    """The first of some places that is a file."""
    for place in places:
        if place.is_file():
            return place
    fail(f"no {what} at {' or '.join(map(str, places))}")


def library():
    """The folder of the header, and the library's file."""
    alone = (HERE / "lib" / "libecow.a").is_file()
    home = pathlib.Path(os.environ.get("ECOW_HOME") or (HERE if alone else HERE.parent)).resolve()
    header = find("ecow.h", home / "include" / "ecow.h", home / "bin" / "ecow.h")
    archives = [home / folder / "libecow.a" for folder in ("lib", "bin")]
    return header.parent, find("libecow.a (`make lib` builds it)", *archives)


def version():
    return find("VERSION", HERE / "VERSION", HERE.parent / "VERSION").read_text().strip()


def licenses():
    return {name: find(name, HERE / name, HERE.parent / name).read_bytes() for name in LICENSES}


def compile_module(to):
    """Leaves the extension module at a path."""
    include, archive = library()
    compiler = shlex.split(os.environ.get("CC") or sysconfig.get_config_var("CC") or "cc")
    python = pathlib.Path(sysconfig.get_path("include"))
    find("Python.h (the headers of this Python)", python / "Python.h")
    if not shutil.which(compiler[0]):
        fail(f"no C compiler {compiler[0]} (CC names another)")
    sources = sorted(path.relative_to(HERE) for path in (HERE / "core").glob("*.c"))
    # The library's own names stay inside, so that another copy of it in the process is another.
    command = [
        *compiler, "-std=c11", "-O2", "-fPIC", "-shared", "-fvisibility=hidden", "-fwrapv",
        "-Wall", "-Wextra", "-Wno-missing-field-initializers", f'-DPACKAGE_VERSION="{version()}"',
        f"-I{include}", f"-I{python}", *map(str, sources), str(archive),
        "-Wl,--exclude-libs,ALL", "-o", str(to),
    ]
    if subprocess.run(command, cwd=HERE).returncode:
        fail("the C compiler failed")


def project():
    return tomllib.loads((HERE / "pyproject.toml").read_text())["project"]


def metadata():
    told = project()
    return "\n".join([
        "Metadata-Version: 2.1",
        f"Name: {told['name']}",
        f"Version: {version()}",
        f"Summary: {told['description']}",
        f"License: {told['license']}",
        *(f"License-File: {name}" for name in LICENSES),
        f"Requires-Python: {told['requires-python']}",
        "Description-Content-Type: text/markdown",
        "",
        (HERE / told["readme"]).read_text("utf-8"),
    ])


def tag():
    platform = sysconfig.get_platform().replace("-", "_").replace(".", "_")
    return f"cp311-abi3-{platform}"


def write_wheel(folder, contents):
    """Writes a wheel of some files, given by name with their bytes, and answers its name."""
    name = f"{project()['name']}-{version()}"
    info = f"{name}.dist-info"
    contents = {
        **contents,
        f"{info}/METADATA": metadata().encode(),
        **{f"{info}/licenses/{name}": text for name, text in licenses().items()},
        f"{info}/WHEEL": "\n".join([
            "Wheel-Version: 1.0",
            "Generator: ecow",
            "Root-Is-Purelib: false",
            f"Tag: {tag()}",
            "",
        ]).encode(),
    }
    record = []
    for path, data in sorted(contents.items()):
        digest = base64.urlsafe_b64encode(hashlib.sha256(data).digest()).rstrip(b"=").decode()
        record.append(f"{path},sha256={digest},{len(data)}\n")
    record.append(f"{info}/RECORD,,\n")
    wheel = f"{name}-{tag()}.whl"
    with zipfile.ZipFile(pathlib.Path(folder) / wheel, "w") as file:
        for path, data in [*sorted(contents.items()), (f"{info}/RECORD", "".join(record).encode())]:
            entry = zipfile.ZipInfo(path, EPOCH)
            entry.compress_type = zipfile.ZIP_DEFLATED
            entry.external_attr = (0o755 if path.endswith(".so") else 0o644) << 16
            file.writestr(entry, data)
    return wheel


def build_wheel(wheel_directory, config_settings=None, metadata_directory=None):
    contents = {
        f"ecow/{path.name}": path.read_bytes()
        for path in (HERE / "ecow").iterdir()
        if path.suffix in (".py", ".pyi") or path.name == "py.typed"
    }
    with tempfile.TemporaryDirectory() as folder:
        module = pathlib.Path(folder) / MODULE
        compile_module(module)
        contents[f"ecow/{MODULE}"] = module.read_bytes()
    return write_wheel(wheel_directory, contents)


def build_editable(wheel_directory, config_settings=None, metadata_directory=None):
    """The module is left beside the sources, which Python then reads from this folder."""
    compile_module(HERE / "ecow" / MODULE)
    return write_wheel(wheel_directory, {"ecow.pth": f"{HERE}\n".encode()})


def build_sdist(sdist_directory, config_settings=None):
    name = f"{project()['name']}-{version()}"
    files = {
        str(path.relative_to(HERE)): path.read_bytes()
        for path in HERE.rglob("*")
        if path.is_file() and path.suffix in (".py", ".pyi", ".c", ".h", ".toml", ".typed", ".md")
    }
    header, archive = library()
    files["include/ecow.h"] = (header / "ecow.h").read_bytes()
    files["lib/libecow.a"] = archive.read_bytes()
    files.update(licenses())
    files["VERSION"] = f"{version()}\n".encode()
    files["PKG-INFO"] = metadata().encode()
    packed = io.BytesIO()
    with tarfile.open(fileobj=packed, mode="w", format=tarfile.PAX_FORMAT) as file:
        for path, data in sorted(files.items()):
            entry = tarfile.TarInfo(f"{name}/{path}")
            entry.size = len(data)
            file.addfile(entry, io.BytesIO(data))
    archive = f"{name}.tar.gz"
    (pathlib.Path(sdist_directory) / archive).write_bytes(
        gzip.compress(packed.getvalue(), mtime=0))
    return archive
