"""Packs the one module of this directory for pip, so that installing it asks for no other package."""
import base64
import hashlib
import os
import zipfile

NAME, VERSION = 'soter_guard', '0.1.0'
FRONT = f'{NAME}-{VERSION}.dist-info'
METADATA = f'Metadata-Version: 2.1\nName: soter-guard\nVersion: {VERSION}\nRequires-Python: >=3.9\n'
WHEEL = 'Wheel-Version: 1.0\nGenerator: build_wheel\nRoot-Is-Purelib: true\nTag: py3-none-any\n'


def recorded(name, content):
    """A file's line in the list of a wheel."""
    digest = base64.urlsafe_b64encode(hashlib.sha256(content).digest()).rstrip(b'=').decode()
    return f'{name},sha256={digest},{len(content)}\n'


def build_wheel(wheel_directory, config_settings=None, metadata_directory=None):
    """Writes the wheel, and returns its name, as pip asks for it."""
    with open(NAME + '.py', 'rb') as file:
        module = file.read()
    files = {NAME + '.py': module, FRONT + '/METADATA': METADATA.encode(), FRONT + '/WHEEL': WHEEL.encode()}
    lines = [recorded(name, content) for name, content in files.items()]
    files[FRONT + '/RECORD'] = ''.join(lines + [f'{FRONT}/RECORD,,\n']).encode()
    wheel = f'{NAME}-{VERSION}-py3-none-any.whl'
    with zipfile.ZipFile(os.path.join(wheel_directory, wheel), 'w') as packed:
        for name, content in files.items():
            packed.writestr(name, content)
    return wheel
