"""Makes the wheel that pip installs (PEP 517), of the package as it stands here. The usual makers of wheels would have to be fetched first."""
import base64
import hashlib
import io
import os
import re
import tarfile
import zipfile

HERE = os.path.dirname(os.path.abspath(__file__))
PACKAGE = [f"tokenmarsh/{name}" for name in sorted(os.listdir(os.path.join(HERE, "tokenmarsh"))) if name.endswith((".py", "py.typed"))]


def _text(path):
    with open(os.path.join(HERE, path), encoding="utf-8") as f:
        return f.read()


def _project():
    """The name with the version, as files are named by it, and the metadata."""
    project = _text("pyproject.toml")
    name, summary, licence, python = (re.search(rf'(?m)^{key} = (?:{{ text = )?"([^"]*)"', project)[1] for key in ("name", "description", "license", "requires-python"))
    version = re.search(r'(?m)^__version__ = "([^"]*)"$', _text("tokenmarsh/__init__.py"))[1]
    lines = ("Metadata-Version: 2.1", f"Name: {name}", f"Version: {version}", f"Summary: {summary}", f"License: {licence}", f"Requires-Python: {python}")
    return f"{name}-{version}", "\n".join(lines) + "\n"


def build_wheel(wheel_directory, config_settings=None, metadata_directory=None):
    named, metadata = _project()
    about = f"{named}.dist-info/"
    files = {path: _text(path) for path in PACKAGE}
    files[about + "METADATA"] = metadata
    files[about + "WHEEL"] = "Wheel-Version: 1.0\nGenerator: tokenmarsh\nRoot-Is-Purelib: true\nTag: py3-none-any\n"
    record = ""
    for path, text in files.items():
        digest = base64.urlsafe_b64encode(hashlib.sha256(text.encode()).digest()).decode().rstrip("=")
        record += f"{path},sha256={digest},{len(text.encode())}\n"
    files[about + "RECORD"] = record + about + "RECORD,,\n"
    wheel = f"{named}-py3-none-any.whl"
    with zipfile.ZipFile(os.path.join(wheel_directory, wheel), "w", zipfile.ZIP_DEFLATED) as archive:
        for path, text in files.items():
            one = zipfile.ZipInfo(path)  # no time of day: the same files make the same wheel
            one.external_attr = 0o644 << 16
            archive.writestr(one, text, zipfile.ZIP_DEFLATED)
    return wheel


def build_sdist(sdist_directory, config_settings=None):
    named, metadata = _project()
    with tarfile.open(os.path.join(sdist_directory, f"{named}.tar.gz"), "w:gz") as archive:
        for path in ("pyproject.toml", "backend.py", *PACKAGE):
            archive.add(os.path.join(HERE, path), f"{named}/{path}")
        about = tarfile.TarInfo(f"{named}/PKG-INFO")
        about.size = len(metadata.encode())
        archive.addfile(about, io.BytesIO(metadata.encode()))
    return f"{named}.tar.gz"
