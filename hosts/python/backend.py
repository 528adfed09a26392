"""What pip asks to make a wheel of the module (PEP 517): by the standard library alone, so that nothing is fetched. The wheel has libfernmoldew.so in it: the one of the folder that
FERNMOLDEW_LIB names, or the proved one of target/native, if hosts/library made it of what stands here; else one that is compiled with no proof, which is said. With FERNMOLDEW_PROVED=only that is an error."""

import base64
import hashlib
import os
import re
import subprocess
import sys
import sysconfig
import tempfile
import zipfile
from pathlib import Path

HERE = Path(__file__).resolve().parent
ROOT = HERE.parents[1]


def metadata():
    project = dict(re.findall(r'(?m)^([\w-]+) = "(.*)"$', (HERE / 'pyproject.toml').read_text()))
    lines = ['Metadata-Version: 2.1', f'Name: {project["name"]}', f'Version: {project["version"]}', f'Summary: {project["description"]}', f'Requires-Python: {project["requires-python"]}',
             'License: Apache-2.0 OR MIT']
    return project['version'], '\n'.join(lines) + '\n'


def library(room):
    """The folder that has libfernmoldew.so."""
    named = os.environ.get('FERNMOLDEW_LIB')
    if named:
        return Path(named)
    maker = ROOT / 'hosts/library'
    if subprocess.run([maker, '--look'], stdout=subprocess.DEVNULL, stderr=subprocess.DEVNULL).returncode == 0 and (ROOT / 'target/native/libfernmoldew.so').exists():
        return ROOT / 'target/native'
    if os.environ.get('FERNMOLDEW_PROVED') == 'only':
        sys.exit('fernmoldew: the library is not proved here, or not of these sources: hosts/library proves it (minutes)')
    print('fernmoldew: the library is built from the sources, not proved: hosts/library proves it (minutes)', file=sys.stderr)
    subprocess.run([maker, '--unproved', '--into', room], check=True)
    return Path(room)


def build_wheel(wheel_directory, config_settings=None, metadata_directory=None):
    version, about = metadata()
    platform = re.sub(r'[^\w]', '_', sysconfig.get_platform())
    tag, own = f'py3-none-{platform}', f'fernmoldew-{version}.dist-info'
    name = f'fernmoldew-{version}-{tag}.whl'
    with tempfile.TemporaryDirectory() as room:
        files = {f'fernmoldew/{file.name}': file.read_bytes() for file in sorted((HERE / 'fernmoldew').glob('*')) if file.suffix in ('.py', '.typed')}
        shared = f'libfernmoldew.so.{version.partition(".")[0]}'
        files[f'fernmoldew/{shared}'] = (library(room) / shared).read_bytes()
    files[f'{own}/METADATA'] = about.encode()
    files[f'{own}/WHEEL'] = f'Wheel-Version: 1.0\nGenerator: fernmoldew\nRoot-Is-Purelib: false\nTag: {tag}\n'.encode()
    digests = [f'{place},sha256={base64.urlsafe_b64encode(hashlib.sha256(data).digest()).rstrip(b"=").decode()},{len(data)}\n' for place, data in files.items()]
    files[f'{own}/RECORD'] = ''.join([*digests, f'{own}/RECORD,,\n']).encode()
    with zipfile.ZipFile(Path(wheel_directory) / name, 'w', zipfile.ZIP_DEFLATED) as wheel:
        for place, data in files.items():
            wheel.writestr(zipfile.ZipInfo(place, (1980, 1, 1, 0, 0, 0)), data, zipfile.ZIP_DEFLATED)
    return name


def build_sdist(sdist_directory, config_settings=None):
    raise NotImplementedError('the library is made of the whole tree: install from there')
