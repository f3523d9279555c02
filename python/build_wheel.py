"""Writes the wheel of the module, for `pip install ./python` and for tools/packages. It needs nothing beside Python.

The wheel has the released programs, the script as the commands `matchbench` and `matchtrim`, and the manual pages, where ../release
is whole and of the sources as they are; else it has the module alone.
"""
import base64
import hashlib
import os
import subprocess
import sys
import time
import zipfile

HERE = os.path.dirname(os.path.realpath(__file__))
TOP = os.path.dirname(HERE)
PROGRAMS = ('matchbench', 'matchtrim')
PLATFORM = 'manylinux_2_34_x86_64'


def read(*path):
    with open(os.path.join(TOP, *path), 'rb') as file:
        return file.read()


def version():
    """The version, and the seconds of its date."""
    lines = dict(line.split(': ', 1) for line in read('CITATION.cff').decode().splitlines() if ': ' in line)
    date = time.strptime(lines['date-released'] + ' UTC', '%Y-%m-%d %Z')
    return lines['version'].strip('"'), int(time.mktime(date) - time.timezone)


def files_of_module():
    return sorted(it for it in os.listdir(os.path.join(HERE, 'matchbench')) if it.endswith('.py') or it == 'py.typed')


def has_release():
    """Whether ../release is whole and of the sources as they are; says else why not."""
    try:
        done = subprocess.run([os.path.join(TOP, 'tools', 'release'), '--check'], stdout=subprocess.PIPE, stderr=subprocess.STDOUT)
        said = done.stdout.decode(errors='replace').strip()
    except OSError as fault:
        said = str(fault)
    if not said.startswith('current'):
        print(f'matchbench: the wheel lacks the programs; {said}', file=sys.stderr)
    return said.startswith('current')


def sum_of(data):
    """A checksum as RECORD has it."""
    return base64.urlsafe_b64encode(hashlib.sha256(data).digest()).rstrip(b'=').decode()


def wheel_of(folder, parts, pure):
    """Writes a wheel of parts, each a name, its bytes and whether it can be executed."""
    number, seconds = version()
    seconds = int(os.environ.get('SOURCE_DATE_EPOCH', seconds))
    tag = f'py3-none-{"any" if pure else PLATFORM}'
    info = f'matchbench-{number}.dist-info'
    guide = read('docs', 'PYTHON.md').decode()
    metadata = (f'Metadata-Version: 2.1\nName: matchbench\nVersion: {number}\n'
                'Summary: All stable matchings of an instance, with proved answers\nLicense: MIT\nRequires-Python: >=3.8\n'
                f'Description-Content-Type: text/markdown\n\n{guide}')
    parts = sorted([*parts, (f'{info}/LICENSE', read('LICENSE'), False), (f'{info}/METADATA', metadata.encode(), False)])
    about = f'Wheel-Version: 1.0\nGenerator: matchbench\nRoot-Is-Purelib: {str(pure).lower()}\nTag: {tag}\n'
    parts.append((f'{info}/WHEEL', about.encode(), False))
    record = ''.join(f'{name},sha256={sum_of(data)},{len(data)}\n' for name, data, _ in parts) + f'{info}/RECORD,,\n'
    parts.append((f'{info}/RECORD', record.encode(), False))
    name = f'matchbench-{number}-{tag}.whl'
    with zipfile.ZipFile(os.path.join(folder, name), 'w', zipfile.ZIP_DEFLATED, compresslevel=9) as wheel:
        for path, data, is_program in parts:
            entry = zipfile.ZipInfo(path, time.gmtime(seconds)[:6])
            entry.create_system, entry.compress_type = 3, zipfile.ZIP_DEFLATED
            entry.external_attr = (0o100755 if is_program else 0o100644) << 16
            wheel.writestr(entry, data)
    return name


def build_wheel(wheel_directory, config_settings=None, metadata_directory=None):
    number, _ = version()
    parts = [(f'matchbench/{it}', read('python', 'matchbench', it), False) for it in files_of_module()]
    is_whole = has_release()
    if is_whole:
        data = f'matchbench-{number}.data'
        for it in PROGRAMS:
            page = read('docs', f'{it}.1')
            parts += [(f'{data}/scripts/{it}', read('matchbench'), True),
                      (f'{data}/data/share/man/man1/{it}.1', page, False),
                      (f'{data}/data/libexec/matchbench/{it}.1', page, False)]
        for it in (*PROGRAMS, 'BUILT', 'SHA256SUMS'):
            parts.append((f'{data}/data/libexec/matchbench/{it}', read('release', it), it in PROGRAMS))
    return wheel_of(wheel_directory, parts, not is_whole)


def build_editable(wheel_directory, config_settings=None, metadata_directory=None):
    """The module in this folder, which finds the program of the repository."""
    return wheel_of(wheel_directory, [('matchbench.pth', f'{HERE}\n'.encode(), False)], True)


def build_sdist(sdist_directory, config_settings=None):
    raise NotImplementedError('the sources are the repository: pip install ./python')
