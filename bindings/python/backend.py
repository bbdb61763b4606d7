"""What `pip` calls to make a wheel (PEP 517): the package, and the library that bindings/c/build made.

The library is libborsh.so.0 in the folder that BORSH_LIB names, or else in bindings/out. So the wheel is for this platform, and for any
Python 3. A wheel is made of a built library alone, so there is no source distribution.
"""
import base64
import hashlib
import os
import pathlib
import re
import sysconfig
import zipfile

HERE = pathlib.Path(__file__).resolve().parent
LIBRARY = "libborsh.so.0"


class UnsupportedOperation(Exception):
    """What a frontend expects of a hook that can't do it."""


def project(key):
    return re.search(rf'^{key} = "(.*)"$', (HERE / "pyproject.toml").read_text(encoding="utf-8"), re.M)[1]


def library():
    path = pathlib.Path(os.environ.get("BORSH_LIB") or HERE.parent / "out") / LIBRARY
    if not path.is_file():
        raise SystemExit(f"there is no {path}: run bindings/c/build, or name the folder with {LIBRARY} by BORSH_LIB")
    return path


def metadata():
    head = [
        "Metadata-Version: 2.1",
        f"Name: {project('name')}",
        f"Version: {project('version')}",
        f"Summary: {project('description')}",
        "License: MIT OR Apache-2.0",
        f"Requires-Python: {project('requires-python')}",
        "Description-Content-Type: text/markdown",
    ]
    return "\n".join([*head, "", (HERE / "README.md").read_text(encoding="utf-8")]).encode()


def build_wheel(wheel_directory, config_settings=None, metadata_directory=None):
    name, version = project("name"), project("version")
    tag = "py3-none-" + re.sub(r"[-.]", "_", sysconfig.get_platform())
    info = f"{name}-{version}.dist-info"
    package = sorted(path for path in (HERE / "src" / name).iterdir() if path.suffix != ".so" and path.is_file())
    files = {f"{name}/{path.name}": path.read_bytes() for path in package}
    files[f"{name}/{LIBRARY}"] = library().read_bytes()
    files[f"{info}/METADATA"] = metadata()
    files[f"{info}/WHEEL"] = f"Wheel-Version: 1.0\nGenerator: {name}\nRoot-Is-Purelib: false\nTag: {tag}\n".encode()
    files[f"{info}/RECORD"] = record(files, f"{info}/RECORD")
    wheel = f"{name}-{version}-{tag}.whl"
    with zipfile.ZipFile(pathlib.Path(wheel_directory) / wheel, "w", zipfile.ZIP_DEFLATED) as archive:
        for path, data in files.items():
            # The same bytes whenever it is made.
            archive.writestr(zipfile.ZipInfo(path, (1980, 1, 1, 0, 0, 0)), data, zipfile.ZIP_DEFLATED)
    return wheel


def record(files, itself):
    lines = []
    for path, data in files.items():
        digest = base64.urlsafe_b64encode(hashlib.sha256(data).digest()).rstrip(b"=").decode()
        lines.append(f"{path},sha256={digest},{len(data)}")
    return "\n".join([*lines, f"{itself},,", ""]).encode()


def build_sdist(sdist_directory, config_settings=None):
    raise UnsupportedOperation("a wheel is made of a built library")
