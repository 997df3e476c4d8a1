"""Builds the wheel of this package without any other package, so that `pip install ./python` needs no network. Where `make -C c` has built the shared library, it goes in."""

import base64
import hashlib
import pathlib
import re
import sysconfig
import zipfile

HERE = pathlib.Path(__file__).resolve().parent
BUILT = HERE.parent / "c" / "libnvmesgl.so"


def _said(name: str) -> str:
    """A text of the table [project]."""
    found = re.search(rf'^{name} = "(.*)"$', (HERE / "pyproject.toml").read_text(), re.M)
    assert found, name
    return found[1]


def _wheel(folder, files):
    """Writes a wheel of these files, and returns its name."""
    name, version = _said("name"), _said("version")
    tag = f"py3-none-{re.sub('[-.]', '_', sysconfig.get_platform())}" if BUILT.exists() else "py3-none-any"
    info = f"{name}-{version}.dist-info"
    pure = str(not BUILT.exists()).lower()
    files[f"{info}/METADATA"] = f"Metadata-Version: 2.1\nName: {name}\nVersion: {version}\nSummary: {_said('description')}\nRequires-Python: {_said('requires-python')}\n".encode()
    files[f"{info}/WHEEL"] = f"Wheel-Version: 1.0\nGenerator: {name}\nRoot-Is-Purelib: {pure}\nTag: {tag}\n".encode()
    record = [f"{path},sha256={base64.urlsafe_b64encode(hashlib.sha256(text).digest()).rstrip(b'=').decode()},{len(text)}" for path, text in files.items()]
    files[f"{info}/RECORD"] = "\n".join([*record, f"{info}/RECORD,,", ""]).encode()
    wheel = f"{name}-{version}-{tag}.whl"
    with zipfile.ZipFile(pathlib.Path(folder) / wheel, "w", zipfile.ZIP_DEFLATED) as out:
        for path, text in files.items():
            out.writestr(path, text)
    return wheel


def build_wheel(wheel_directory, config_settings=None, metadata_directory=None):
    """The package, and the shared library where it is built."""
    files = {f"nvmesgl/{path.name}": path.read_bytes() for path in sorted((HERE / "nvmesgl").iterdir()) if path.suffix == ".py" or path.name == "py.typed"}
    if BUILT.exists():
        files["nvmesgl/libnvmesgl.so"] = BUILT.read_bytes()
    return _wheel(wheel_directory, files)


def build_editable(wheel_directory, config_settings=None, metadata_directory=None):
    """A wheel that names this folder."""
    return _wheel(wheel_directory, {"nvmesgl.pth": f"{HERE}\n".encode()})
