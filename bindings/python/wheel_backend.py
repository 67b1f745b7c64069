"""Makes the wheel of this package, for pip and for tools/wheel, with nothing but Python.

The wheel has the library of tools/library, so it is made in a checkout. Its platform tag names the least version of glibc that
the library needs. For the same files the wheel has the same bytes, but for another version of zlib.
"""
import base64
import hashlib
import re
import subprocess
import tempfile
import zipfile
from pathlib import Path

HERE = Path(__file__).resolve().parent
TOP = HERE.parents[1]
LICENCES = [TOP / "LICENSE-MIT", TOP / "LICENSE-APACHE", TOP / "dist" / "NOTICES"]
# the oldest glibc whose wheels pip knows on x86-64
OLDEST_GLIBC = (2, 5)


def field(name):
    """Returns a field of pyproject.toml that is a text. Only Python 3.11 and later can read the whole file."""
    text = (HERE / "pyproject.toml").read_text(encoding="utf-8")
    return re.search(rf'^{name} = (?:{{text = )?"(.+?)"', text, re.MULTILINE)[1]


def library():
    """Returns the bytes of libaggen.so. Raises CalledProcessError if tools/library has none; its message is on standard error."""
    with tempfile.TemporaryDirectory() as folder:
        subprocess.run([TOP / "tools" / "library", "--copy", folder], check=True, stdin=subprocess.DEVNULL)
        return Path(folder, "lib", "libaggen.so").read_bytes()


def tag_of(shared):
    """Returns the tag of a wheel with this shared library."""
    # the machine of an ELF file is in its bytes 18 and 19
    if shared[:4] != b"\x7fELF" or shared[18:20] != b"\x3e\x00":
        raise ValueError("libaggen.so is not for x86-64")
    versions = {(int(it[1]), int(it[2])) for it in re.finditer(rb"GLIBC_(\d+)\.(\d+)", shared)}
    return "py3-none-manylinux_%d_%d_x86_64" % max({OLDEST_GLIBC, *versions})


def metadata():
    """Returns the file METADATA."""
    lines = ["Metadata-Version: 2.1", f"Name: {field('name')}", f"Version: {field('version')}"]
    lines += [f"Summary: {field('description')}", f"License: {field('license')}"]
    lines += [f"License-File: {it.name}" for it in LICENCES]
    lines += [f"Requires-Python: {field('requires-python')}", "Classifier: Typing :: Typed"]
    return "\n".join(lines) + "\n"


def files_of(shared, info):
    """Returns the content of each file of the wheel by its name, apart from RECORD."""
    files = {f"aggen/{it}": (HERE / "aggen" / it).read_bytes() for it in ("__init__.py", "py.typed")}
    files["aggen/libaggen.so"] = shared
    files[f"{info}/METADATA"] = metadata().encode()
    files[f"{info}/WHEEL"] = f"Wheel-Version: 1.0\nGenerator: aggen\nRoot-Is-Purelib: false\nTag: {tag_of(shared)}\n".encode()
    files.update((f"{info}/licenses/{it.name}", it.read_bytes()) for it in LICENCES)
    return files


def record_of(files, info):
    """Returns the file RECORD: the name, the checksum and the length of each file."""
    lines = []
    for name, content in files.items():
        checksum = base64.urlsafe_b64encode(hashlib.sha256(content).digest()).decode().rstrip("=")
        lines.append(f"{name},sha256={checksum},{len(content)}\n")
    return "".join([*lines, f"{info}/RECORD,,\n"])


def build_wheel(wheel_directory, config_settings=None, metadata_directory=None):
    """Writes the wheel to a folder, and returns its name. pip calls it."""
    shared = library()
    name = f"{field('name')}-{field('version')}"
    info = f"{name}.dist-info"
    files = files_of(shared, info)
    files[f"{info}/RECORD"] = record_of(files, info).encode()
    wheel = f"{name}-{tag_of(shared)}.whl"
    with zipfile.ZipFile(Path(wheel_directory, wheel), "w", zipfile.ZIP_DEFLATED) as archive:
        for file, content in files.items():
            entry = zipfile.ZipInfo(file)
            entry.compress_type = zipfile.ZIP_DEFLATED
            entry.create_system = 3
            entry.external_attr = 0o100644 << 16
            archive.writestr(entry, content)
    return wheel
