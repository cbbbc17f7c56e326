"""The build backend with which pip makes a wheel of this folder: the package together with the shared library, so that it needs nothing else.

The wheel has the version of the library. The library is the one that the package would load: capi/out of the clone, the prefix of install.sh, or
the file that the environment names in FEDDURZAI_LIBRARY.

packaging/build.sh passes two settings: `platform`, the platform tags of the wheel with dots between them, if they are not those of this machine;
and `notes`, a folder whose files go beside the wheel's metadata. SOURCE_DATE_EPOCH in the environment is the time of all files in the wheel; with
it, the same files give the same bytes.
"""

import base64
import hashlib
import os
import sys
import sysconfig
import time
import zipfile

HERE = os.path.dirname(os.path.abspath(__file__))

# what pip installs only on request: pyelftools for the inspector, Dask for many files on a cluster
EXTRAS = (
    "Provides-Extra: elf\nRequires-Dist: pyelftools; extra == 'elf'\n"
    "Provides-Extra: cluster\nRequires-Dist: distributed; extra == 'cluster'\n"
)
SCRIPTS = "[console_scripts]\nfeddurzai-inspect = feddurzai.inspector.command:main\n"


def _package():
    """The package, with the library that it loads."""
    sys.path.insert(0, HERE)
    try:
        import feddurzai
        from feddurzai import _native
    finally:
        sys.path.remove(HERE)
    return feddurzai, _native


def _library(native):
    """The file of the library."""
    (place,) = native._places()
    if not os.path.exists(place):
        raise SystemExit(f"{place} does not exist: build the library with capi/build.sh, or name its file in FEDDURZAI_LIBRARY")
    return place


def _metadata(version):
    return f"Metadata-Version: 2.1\nName: feddurzai\nVersion: {version}\nSummary: Decodes, encodes, prints, analyses and relocates x86 machine code\nRequires-Python: >=3.8\n{EXTRAS}"


def _put(archive, name, content):
    """Puts a file into a wheel; a library may be run, as pip itself leaves it."""
    epoch = os.environ.get("SOURCE_DATE_EPOCH")
    entry = zipfile.ZipInfo(name, time.gmtime(int(epoch))[:6] if epoch else time.localtime()[:6])
    entry.compress_type = zipfile.ZIP_DEFLATED
    entry.create_system = 3
    entry.external_attr = (0o100755 if ".so." in name else 0o100644) << 16
    archive.writestr(entry, content)


def _wheel(directory, files, tag):
    """Writes a wheel of some files by their names in it, and returns its name."""
    feddurzai, _ = _package()
    version = ".".join(map(str, feddurzai.version()))
    info = f"feddurzai-{version}.dist-info"
    start, _, platforms = tag.rpartition("-")
    tags = "".join(f"Tag: {start}-{it}\n" for it in platforms.split("."))
    files = {
        **{name.replace("INFO/", f"{info}/"): content for name, content in files.items()},
        f"{info}/METADATA": _metadata(version).encode(),
        f"{info}/entry_points.txt": SCRIPTS.encode(),
        f"{info}/WHEEL": f"Wheel-Version: 1.0\nGenerator: feddurzai\nRoot-Is-Purelib: false\n{tags}".encode(),
    }
    record = ""
    wheel = f"feddurzai-{version}-{tag}.whl"
    with zipfile.ZipFile(os.path.join(directory, wheel), "w", zipfile.ZIP_DEFLATED) as archive:
        for name, content in files.items():
            _put(archive, name, content)
            digest = base64.urlsafe_b64encode(hashlib.sha256(content).digest()).rstrip(b"=").decode()
            record += f"{name},sha256={digest},{len(content)}\n"
        _put(archive, f"{info}/RECORD", record + f"{info}/RECORD,,\n")
    return wheel


def _tag(platforms=None):
    return "py3-none-" + (platforms or sysconfig.get_platform().replace("-", "_").replace(".", "_"))


def get_requires_for_build_wheel(config_settings=None):
    return []


def build_wheel(wheel_directory, config_settings=None, metadata_directory=None):
    _, native = _package()
    settings, files = config_settings or {}, {}
    for part in ("feddurzai", "feddurzai/inspector"):
        folder = os.path.join(HERE, part)
        for name in sorted(os.listdir(folder)):
            if name.endswith(".py") or name == "py.typed":
                with open(os.path.join(folder, name), "rb") as source:
                    files[f"{part}/{name}"] = source.read()
    with open(_library(native), "rb") as source:
        files[f"feddurzai/{native.SONAME}"] = source.read()
    notes = settings.get("notes")
    for name in sorted(os.listdir(notes)) if notes else []:
        with open(os.path.join(notes, name), "rb") as source:
            files[f"INFO/{name}"] = source.read()
    return _wheel(wheel_directory, files, _tag(settings.get("platform")))


def get_requires_for_build_editable(config_settings=None):
    return []


def build_editable(wheel_directory, config_settings=None, metadata_directory=None):
    return _wheel(wheel_directory, {"feddurzai.pth": HERE.encode() + b"\n"}, _tag())
