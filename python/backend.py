"""What pip asks to install this folder (PEP 517 and 660), with Python's standard library alone: a wheel in which gvrs.py is the package gvrs,
beside the mark that it has type hints. The name and the like are those of pyproject.toml, the version is that of gvrs.py."""

import base64
import hashlib
import io
import os
import re
import tarfile
import zipfile

HERE = os.path.dirname(os.path.abspath(__file__))


def _read(name):
    with open(os.path.join(HERE, name), "rb") as stream:
        return stream.read()


def _said(name, key):
    return re.search(f'^{re.escape(key)} = "(.*)"$', _read(name).decode(), re.MULTILINE)[1]


def _name():
    return f"{_said('pyproject.toml', 'name')}-{_said('gvrs.py', '__version__')}"


def _metadata():
    fields = {
        "Metadata-Version": "2.1",
        "Name": _said("pyproject.toml", "name"),
        "Version": _said("gvrs.py", "__version__"),
        "Summary": _said("pyproject.toml", "description"),
        "Requires-Python": _said("pyproject.toml", "requires-python"),
    }
    return "".join(f"{field}: {value}\n" for field, value in fields.items()).encode()


def _line(name, content):
    digest = base64.urlsafe_b64encode(hashlib.sha256(content).digest()).rstrip(b"=").decode()
    return f"{name},sha256={digest},{len(content)}\n"


def _wheel(folder, files):
    """Writes a wheel of these files, by their names: its name. The same files give the same bytes."""
    about = f"{_name()}.dist-info"
    files = {
        **files,
        f"{about}/METADATA": _metadata(),
        f"{about}/WHEEL": b"Wheel-Version: 1.0\nGenerator: gvrs\nRoot-Is-Purelib: true\nTag: py3-none-any\n",
    }
    record = "".join(_line(name, content) for name, content in files.items()) + f"{about}/RECORD,,\n"
    wheel = f"{_name()}-py3-none-any.whl"
    with zipfile.ZipFile(os.path.join(folder, wheel), "w", zipfile.ZIP_DEFLATED) as archive:
        for name, content in {**files, f"{about}/RECORD": record.encode()}.items():
            member = zipfile.ZipInfo(name)
            member.external_attr = 0o644 << 16
            archive.writestr(member, content, zipfile.ZIP_DEFLATED)
    return wheel


def build_wheel(wheel_directory, config_settings=None, metadata_directory=None):
    return _wheel(wheel_directory, {"gvrs/__init__.py": _read("gvrs.py"), "gvrs/py.typed": b""})


def build_editable(wheel_directory, config_settings=None, metadata_directory=None):
    return _wheel(wheel_directory, {"gvrs.pth": HERE.encode() + b"\n"})


def build_sdist(sdist_directory, config_settings=None):
    sdist = f"{_name()}.tar.gz"
    files = {"PKG-INFO": _metadata(), **{name: _read(name) for name in ("pyproject.toml", "backend.py", "gvrs.py")}}
    with tarfile.open(os.path.join(sdist_directory, sdist), "w:gz") as archive:
        for name, content in files.items():
            member = tarfile.TarInfo(f"{_name()}/{name}")
            member.size = len(content)
            archive.addfile(member, io.BytesIO(content))
    return sdist
