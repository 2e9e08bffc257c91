"""Builds the wheel of the package potirehu, with the shared library inside, for pip: with the standard library alone, so that pip has nothing to fetch.

pip builds in an environment without the packages of the machine, setuptools among them, and would fetch what pyproject.toml asks for; it asks for nothing. The
shared library is linked by bindings/python/build, which says where the archive is missing or older than the sources.
"""

import base64
import hashlib
import pathlib
import subprocess
import sys
import zipfile

HERE = pathlib.Path(__file__).resolve().parent
ROOT = HERE.parents[1]
LIBRARY = ROOT / "target/python/libpotirehu.so"
NAME, VERSION, TAG = "potirehu", "0.1.0", "py3-none-linux_x86_64"
METADATA = f"""Metadata-Version: 2.1
Name: {NAME}
Version: {VERSION}
Summary: NRLMSISE-00, the air-density model of low satellites, from the proved library libpotirehu
Requires-Python: >=3.9
"""
WHEEL = f"""Wheel-Version: 1.0
Generator: package_build
Root-Is-Purelib: false
Tag: {TAG}
"""


def build_wheel(wheel_directory, config_settings=None, metadata_directory=None):
    """Links the shared library and writes the wheel; its file name."""
    if subprocess.run([HERE / "build"], stdout=sys.stderr).returncode:
        raise SystemExit("potirehu: the shared library was not linked; the line above says why.")
    files = {f"potirehu/{file.name}": file.read_bytes() for file in sorted((HERE / "potirehu").iterdir()) if file.suffix == ".py" or file.name == "py.typed"}
    files["potirehu/libpotirehu.so"] = LIBRARY.read_bytes()
    return _write(wheel_directory, files)


def build_editable(wheel_directory, config_settings=None, metadata_directory=None):
    """The same for 'pip install -e': the package stays where it is, and the library in target/python."""
    if subprocess.run([HERE / "build"], stdout=sys.stderr).returncode:
        raise SystemExit("potirehu: the shared library was not linked; the line above says why.")
    return _write(wheel_directory, {"potirehu.pth": f"{HERE}\n".encode()})


def build_sdist(sdist_directory, config_settings=None):
    """There is none: the library is proved and built in the repository."""
    raise SystemExit("potirehu: there is no source archive; install the folder bindings/python of the repository.")


def _write(folder, files):
    about = f"{NAME}-{VERSION}.dist-info"
    files = {**files, f"{about}/METADATA": METADATA.encode(), f"{about}/WHEEL": WHEEL.encode()}
    files[f"{about}/entry_points.txt"] = b"[console_scripts]\npotirehu = potirehu.density:run\n"
    listed = "".join(f"{name},sha256={_hash(data)},{len(data)}\n" for name, data in files.items())
    files[f"{about}/RECORD"] = f"{listed}{about}/RECORD,,\n".encode()
    name = f"{NAME}-{VERSION}-{TAG}.whl"
    with zipfile.ZipFile(pathlib.Path(folder) / name, "w", zipfile.ZIP_DEFLATED) as wheel:
        for path, data in files.items():
            # one date for all, so that the same files give the same wheel
            entry = zipfile.ZipInfo(path, (2026, 1, 1, 0, 0, 0))
            entry.compress_type = zipfile.ZIP_DEFLATED
            entry.external_attr = (0o755 if path.endswith(".so") else 0o644) << 16
            wheel.writestr(entry, data)
    return name


def _hash(data):
    return base64.urlsafe_b64encode(hashlib.sha256(data).digest()).rstrip(b"=").decode()
