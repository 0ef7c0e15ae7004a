"""Builds the package of the one module beside pyproject.toml by the standard library alone, so that pip needs no network.

The two calls are those of PEP 517; pip makes them in the folder of pyproject.toml.
"""
import base64
import configparser
import hashlib
import io
import json
import pathlib
import tarfile
import zipfile

WHEEL = "Wheel-Version: 1.0\nGenerator: one_module\nRoot-Is-Purelib: true\nTag: py3-none-any\n"
SOURCES = ("pyproject.toml", "README.md", "LICENSE", "backend/one_module.py")
EARLIEST = (1980, 1, 1, 0, 0, 0)  # the time of all files, so that one source gives one package


def read_project():
    """The table [project], whose values are all plain texts."""
    parser = configparser.RawConfigParser()
    parser.read("pyproject.toml", encoding="utf-8")
    return {key: json.loads(value) for key, value in parser["project"].items()}


def metadata_of(project):
    """What is said of the package, with its page."""
    lines = [
        "Metadata-Version: 2.1",
        f"Name: {project['name']}",
        f"Version: {project['version']}",
        f"Summary: {project['description']}",
        f"License: {project['license']}",
        f"Requires-Python: {project['requires-python']}",
        "Description-Content-Type: text/markdown",
    ]
    page = pathlib.Path(project["readme"]).read_text(encoding="utf-8")
    return "\n".join([*lines, "", page])


def record_of(files, path):
    """The list of all files with their hashes; it has none of its own."""
    rows = []
    for name, content in files.items():
        digest = base64.urlsafe_b64encode(hashlib.sha256(content).digest()).rstrip(b"=").decode()
        rows.append(f"{name},sha256={digest},{len(content)}\n")
    return "".join([*rows, f"{path},,\n"])


def build_wheel(wheel_directory, config_settings=None, metadata_directory=None):
    """Writes the wheel, and answers its name."""
    project = read_project()
    stem = f"{project['name']}-{project['version']}"
    about = f"{stem}.dist-info"
    module = f"{project['name']}.py"
    files = {
        module: pathlib.Path(module).read_bytes(),
        f"{about}/LICENSE": pathlib.Path("LICENSE").read_bytes(),
        f"{about}/METADATA": metadata_of(project).encode(),
        f"{about}/WHEEL": WHEEL.encode(),
    }
    files[f"{about}/RECORD"] = record_of(files, f"{about}/RECORD").encode()
    name = f"{stem}-py3-none-any.whl"
    with zipfile.ZipFile(pathlib.Path(wheel_directory) / name, "w", zipfile.ZIP_DEFLATED) as wheel:
        for path, content in files.items():
            entry = zipfile.ZipInfo(path, EARLIEST)
            entry.external_attr = 0o644 << 16
            entry.compress_type = zipfile.ZIP_DEFLATED
            wheel.writestr(entry, content)
    return name


def build_sdist(sdist_directory, config_settings=None):
    """Writes the archive of the sources, and answers its name."""
    project = read_project()
    stem = f"{project['name']}-{project['version']}"
    files = {name: pathlib.Path(name).read_bytes() for name in (f"{project['name']}.py", *SOURCES)}
    files["PKG-INFO"] = metadata_of(project).encode()
    name = f"{stem}.tar.gz"
    with tarfile.open(pathlib.Path(sdist_directory) / name, "w:gz", format=tarfile.PAX_FORMAT) as archive:
        for path, content in files.items():
            entry = tarfile.TarInfo(f"{stem}/{path}")
            entry.size = len(content)
            archive.addfile(entry, io.BytesIO(content))
    return name
