"""Makes the wheel of the module `altctl`, as pip asks for it (PEP 517). The same files give the same bytes."""
import base64
import hashlib
import os
import re
import zipfile

HERE = os.path.dirname(os.path.abspath(__file__))


def told(name):
    """What pyproject.toml says under a name. Python has a reader of such files only from 3.11 on."""
    with open(os.path.join(HERE, "pyproject.toml"), encoding="utf-8") as file:
        return re.search(rf'^{name} = "(.*)"$', file.read(), re.M)[1]


def row(path, content):
    digest = base64.urlsafe_b64encode(hashlib.sha256(content).digest()).rstrip(b"=").decode()
    return f"{path},sha256={digest},{len(content)}\n"


def build_wheel(wheel_directory, config_settings=None, metadata_directory=None):
    name, version = told("name"), told("version")
    folder = f"{name}-{version}.dist-info"
    with open(os.path.join(HERE, f"{name}.py"), "rb") as file:
        module = file.read()
    metadata = f"Metadata-Version: 2.1\nName: {name}\nVersion: {version}\nSummary: {told('description')}\n"
    metadata += f"Requires-Python: {told('requires-python')}\n"
    kind = "Wheel-Version: 1.0\nGenerator: altctl\nRoot-Is-Purelib: true\nTag: py3-none-any\n"
    files = {f"{name}.py": module, f"{folder}/METADATA": metadata.encode(), f"{folder}/WHEEL": kind.encode()}
    record = "".join(row(path, content) for path, content in files.items()) + f"{folder}/RECORD,,\n"
    wheel = f"{name}-{version}-py3-none-any.whl"
    with zipfile.ZipFile(os.path.join(wheel_directory, wheel), "w", zipfile.ZIP_DEFLATED) as archive:
        for path, content in {**files, f"{folder}/RECORD": record.encode()}.items():
            entry = zipfile.ZipInfo(path)
            entry.external_attr, entry.compress_type = 0o644 << 16, zipfile.ZIP_DEFLATED
            archive.writestr(entry, content)
    return wheel
