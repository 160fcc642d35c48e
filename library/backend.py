"""What pip calls to build the module with the library inside, over Python's standard library alone, so that nothing is fetched.

The library is the proved one where library/build made it and nothing is newer, else what native/assemble makes by this machine's C compiler.
"""

from __future__ import annotations

import base64
import hashlib
import re
import subprocess
import sysconfig
import zipfile
from collections.abc import Iterator
from pathlib import Path

HERE = Path(__file__).resolve().parent
PLATFORM = re.sub('[-.]', '_', sysconfig.get_platform())


def fields() -> dict[str, str]:
    """The fields of pyproject.toml that a wheel tells. Python has a reader of such files only from 3.11 on."""
    text = (HERE / 'pyproject.toml').read_text()
    return dict(re.findall(r'^([a-z-]+) = "(.*)"$', text, re.MULTILINE))


def library() -> Path:
    """The shared library's file."""
    out = HERE / 'out' / 'libdex.so'
    if out.exists() and subprocess.run([HERE / 'build', '--is-built']).returncode == 0:
        return out
    made = subprocess.run([HERE.parent / 'native' / 'assemble', 'library'], capture_output=True, text=True)
    if made.returncode != 0:
        raise SystemExit(made.stderr)
    return Path(made.stdout.strip()) / 'libdex.so'


def parts(told: dict[str, str]) -> Iterator[tuple[str, bytes]]:
    """The files of the wheel: each name with its bytes."""
    for file in sorted((HERE / 'daisyhook').glob('*.py')):
        yield f'daisyhook/{file.name}', file.read_bytes()
    for file in sorted(file for kind in ('py', 'json') for file in (HERE.parent / 'bridge').glob(f'*.{kind}')):
        yield f'daisyhook/from_ledger/bridge/{file.name}', file.read_bytes()
    yield 'daisyhook/libdex.so', library().read_bytes()
    about = (f'Metadata-Version: 2.1\nName: {told["name"]}\nVersion: {told["version"]}\nSummary: {told["description"]}\n'
             f'Requires-Python: {told["requires-python"]}\n')
    wheel = f'Wheel-Version: 1.0\nGenerator: daisyhook\nRoot-Is-Purelib: false\nTag: py3-none-{PLATFORM}\n'
    texts = {'METADATA': about, 'WHEEL': wheel, 'entry_points.txt': '[console_scripts]\ndaisyhook = daisyhook.__main__:main\n'}
    for name, text in texts.items():
        yield f'{told["name"]}-{told["version"]}.dist-info/{name}', text.encode()


def build_wheel(wheel_directory: str, config_settings: object = None, metadata_directory: object = None) -> str:
    """Writes the wheel into a folder, and gives its name."""
    told = fields()
    name = f'{told["name"]}-{told["version"]}-py3-none-{PLATFORM}.whl'
    record = f'{told["name"]}-{told["version"]}.dist-info/RECORD'
    lines = []
    with zipfile.ZipFile(Path(wheel_directory) / name, 'w', zipfile.ZIP_DEFLATED) as wheel:
        for part, data in parts(told):
            wheel.writestr(part, data)
            sum_of = base64.urlsafe_b64encode(hashlib.sha256(data).digest()).decode().rstrip('=')
            lines.append(f'{part},sha256={sum_of},{len(data)}\n')
        wheel.writestr(record, ''.join(lines) + f'{record},,\n')
    return name
