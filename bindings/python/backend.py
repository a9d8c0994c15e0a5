"""Builds the wheel and the sdist with the standard library only, so that pip needs no network.

The wheel has the library, and is for machines like this one, if NLROUTE_LIB_DIR names its folder, or if the package is
that of an unpacked release, where `../lib` has it. Otherwise it has the package only, for every machine. So has the sdist.
An editable install (`pip install -e`) uses the package in this folder.

Licences of other code in the library, which extra/dist.sh packs, are in the wheel if they are there. The version of a
wheel whose library is not marked as proved ends with `.dev0+unproved`: pip prefers one without this, and no index takes it.
"""
from __future__ import annotations

import base64
import gzip
import hashlib
import io
import os
import re
import sysconfig
import tarfile
import zipfile

HERE = os.path.dirname(os.path.realpath(__file__))
OLDEST_GLIBC = 17  # of the tags manylinux_2_NN: pip has none before
OLDEST_TIME = 315532800  # of a zip file: 1980-01-01


def build_wheel(wheel_directory, config_settings=None, metadata_directory=None):
    """Writes the wheel, and returns its name. pip calls this."""
    project = described()
    files = package(project)
    path = library()
    if not path:
        return write_wheel(wheel_directory, project, "py3-none-any", files, licences())
    content = read(path)
    soname = "libnlroute.so." + ".".join(project["version"].split(".")[:2])
    if soname.encode() not in content:
        raise SystemExit(f"{path} is not {soname}")
    if not re.search(rb"nlroute [\d.]+, proved, commit ", content):
        project["version"] += ".dev0+unproved"
    files[f"nlroute/{soname}"] = content
    return write_wheel(wheel_directory, project, f"py3-none-{platform(content)}", files, licences(path))


def build_editable(wheel_directory, config_settings=None, metadata_directory=None):
    """Writes a wheel that leads to this folder, and returns its name. pip calls this."""
    return write_wheel(wheel_directory, described(), "py3-none-any", {"nlroute.pth": f"{HERE}\n".encode()}, licences())


def build_sdist(sdist_directory, config_settings=None):
    """Writes the sdist, and returns its name. pip calls this."""
    project = described()
    stem = f"{project['name']}-{project['version']}"
    names = ["LICENSE", "README.md", "backend.py", "pyproject.toml"]
    names += [it for it in ["CHANGELOG.md"] if os.path.exists(os.path.join(HERE, it))]  # (only a release has it)
    files = {it: read(os.path.join(HERE, it)) for it in names}
    files |= package(project) | files_in("examples", ".py")
    files["PKG-INFO"] = metadata(project)
    made = io.BytesIO()
    with tarfile.open(fileobj=made, mode="w", format=tarfile.USTAR_FORMAT) as tar:
        for name, content in files.items():
            entry = tarfile.TarInfo(f"{stem}/{name}")
            entry.size, entry.mtime = len(content), int(os.environ.get("SOURCE_DATE_EPOCH", OLDEST_TIME))
            tar.addfile(entry, io.BytesIO(content))
    # (gzip.compress() writes another header from 3.13 on)
    with open(os.path.join(sdist_directory, f"{stem}.tar.gz"), "wb") as out:
        with gzip.GzipFile("", "wb", 9, out, mtime=0) as packed:
            packed.write(made.getvalue())
    return f"{stem}.tar.gz"


def write_wheel(folder, project, tag, files, texts):
    """Writes a wheel with these files, and these texts of licences, and returns its name."""
    info = f"nlroute-{project['version']}.dist-info"
    pure = str(tag.endswith("-any")).lower()
    about = {"Wheel-Version": "1.0", "Generator": "nlroute", "Root-Is-Purelib": pure, "Tag": tag}
    files |= {f"{info}/METADATA": metadata(project), f"{info}/WHEEL": lines_of(about)}
    files |= {f"{info}/licenses/{name}": content for name, content in texts.items()}
    files[f"{info}/RECORD"] = record(files, f"{info}/RECORD").encode()
    name = f"nlroute-{project['version']}-{tag}.whl"
    with zipfile.ZipFile(os.path.join(folder, name), "w", zipfile.ZIP_DEFLATED) as wheel:
        for path, content in files.items():
            # always the same time: the same files give the same wheel
            entry = zipfile.ZipInfo(path, (1980, 1, 1, 0, 0, 0))
            entry.external_attr = 0o644 << 16
            wheel.writestr(entry, content, zipfile.ZIP_DEFLATED)
    return name


def described():
    """Returns what pyproject.toml says of the package: the texts of its table `project`. (tomllib is new in 3.11.)"""
    text = read(os.path.join(HERE, "pyproject.toml")).decode()
    table = re.search(r"^\[project\]$(.*?)^\[", text, re.MULTILINE | re.DOTALL)
    return dict(re.findall(r'^([\w-]+) = "(.*)"$', table[1], re.MULTILINE))


def library():
    """Returns the path of the library that belongs in the wheel, or None."""
    folder = os.environ.get("NLROUTE_LIB_DIR")
    if folder:
        return os.path.join(folder, "libnlroute.so")
    released = os.path.join(HERE, "../lib/libnlroute.so")
    return released if os.path.exists(released) else None


def read(path):
    with open(path, "rb") as file:
        return file.read()


def package(project):
    """Returns the files of the package."""
    return files_in(project["name"], (".py", ".typed"))


def files_in(folder, suffixes):
    """Returns the files of a folder here with one of these suffixes."""
    names = sorted(it for it in os.listdir(os.path.join(HERE, folder)) if it.endswith(suffixes))
    return {f"{folder}/{it}": read(os.path.join(HERE, folder, it)) for it in names}


def licences(path=None):
    """Returns the licence, and those in the folder that the library was unpacked to."""
    found = {"LICENSE": os.path.join(HERE, "LICENSE")}
    if path:
        top = os.path.join(os.path.dirname(path), "../licences")
        for folder, _, names in sorted(os.walk(top)):
            found |= {os.path.relpath(os.path.join(folder, it), top): os.path.join(folder, it) for it in sorted(names)}
    return {name: read(it) for name, it in found.items()}


def platform(content):
    """Returns the tag of the machines that can load the library: the newest glibc that it names counts."""
    newest = max((int(it) for it in re.findall(rb"GLIBC_2\.(\d+)", content)), default=0)
    machine = sysconfig.get_platform()[len("linux-") :].replace("-", "_")
    return f"manylinux_2_{max(newest, OLDEST_GLIBC)}_{machine}"


def metadata(project):
    """Returns the file METADATA, which is PKG-INFO in an sdist."""
    about = {
        "Metadata-Version": "2.1",
        "Name": project["name"],
        "Version": project["version"],
        "Summary": project["description"],
        "Requires-Python": project["requires-python"],
        "License": project["license"],
        "Description-Content-Type": "text/markdown",
    }
    return lines_of(about) + b"\n" + read(os.path.join(HERE, project["readme"]))


def lines_of(fields):
    return "".join(f"{key}: {value}\n" for key, value in fields.items()).encode()


def record(files, itself):
    """Returns the file RECORD: the hash and the length of each file."""
    lines = []
    for path, content in files.items():
        digest = base64.urlsafe_b64encode(hashlib.sha256(content).digest()).rstrip(b"=").decode()
        lines.append(f"{path},sha256={digest},{len(content)}\n")
    return "".join(lines) + f"{itself},,\n"
