"""Builds the wheel of `mincut-graph` by the standard library alone, by the calls of PEP 517 and PEP 660.

A wheel is a zip file with the package, its metadata and a list of its files with their hashes. The wheel remembers the checkout that
it was made from, in `mincut_graph/checkout.txt`, so that an installed package finds the program there. The wheel of a release has the program and
the shared library inside in its place, and knows of no checkout.
"""
import base64
import hashlib
import io
import re
import stat
import tarfile
import zipfile
from pathlib import Path

HERE = Path(__file__).resolve().parent.parent
PACKAGE = 'mincut_graph'
FIXED_TIME = (2020, 1, 1, 0, 0, 0)
LICENCES = ('LICENSE-MIT', 'LICENSE-APACHE')
PROGRAM, LIBRARY = f'{PACKAGE}/bin/mincut', f'{PACKAGE}/lib/libmincut.so'
ANYWHERE, HERE_ALONE = 'py3-none-any', 'py3-none-linux_x86_64'


def project_field(name):
    """A line `name = "text"` of pyproject.toml; Python 3.9 has no reader of TOML."""
    found = re.search(rf'^{re.escape(name)} = "(.*)"$', (HERE / 'pyproject.toml').read_text('utf-8'), re.MULTILINE)
    if found is None:
        raise ValueError(f'pyproject.toml has no line for {name}')
    return found.group(1)


def metadata():
    head = [('Metadata-Version', '2.4'), ('Name', project_field('name')), ('Version', project_field('version')),
            ('Summary', project_field('description')), ('License-Expression', project_field('license')),
            *[('License-File', name) for name in LICENCES], ('Requires-Python', project_field('requires-python')),
            ('Provides-Extra', 'graphs'), ('Requires-Dist', 'networkx; extra == "graphs"'), ('Requires-Dist', 'igraph; extra == "graphs"'),
            ('Requires-Dist', 'scipy; extra == "graphs"'), ('Provides-Extra', 'test'), ('Requires-Dist', 'pytest; extra == "test"'),
            ('Description-Content-Type', 'text/markdown')]
    return ''.join(f'{key}: {text}\n' for key, text in head) + '\n' + (HERE / 'README.md').read_text('utf-8')


def licence(name):
    """A text of the licences: at the top of the repository, or beside pyproject.toml in a source distribution."""
    return next(path for path in (HERE / name, HERE.parent / name) if path.is_file())


def info_files(tag):
    """The files of the folder of metadata: {name: text}."""
    command, pure = project_field('mincut-graph'), str(tag == ANYWHERE).lower()
    return {'METADATA': metadata(), 'WHEEL': f'Wheel-Version: 1.0\nGenerator: wheel_writer\nRoot-Is-Purelib: {pure}\nTag: {tag}\n',
            'entry_points.txt': f'[console_scripts]\nmincut-graph = {command}\n', 'top_level.txt': f'{PACKAGE}\n',
            **{f'licenses/{name}': licence(name).read_text('utf-8') for name in LICENCES}}


def base_name():
    return f'{project_field("name").replace("-", "_")}-{project_field("version")}'


def package_files():
    """The files of the package: {name in the wheel: bytes}."""
    files = {}
    for path in sorted((HERE / PACKAGE).rglob('*')):
        if path.is_file() and '__pycache__' not in path.parts:
            files[path.relative_to(HERE).as_posix()] = path.read_bytes()
    return files


def write_wheel(folder, files, tag=ANYWHERE):
    """Writes the wheel with these files and the metadata into the folder; gives back its name."""
    info = f'{base_name()}.dist-info'
    files = {**files, **{f'{info}/{name}': text.encode() for name, text in info_files(tag).items()}}
    record = io.StringIO()
    for name, content in files.items():
        digest = base64.urlsafe_b64encode(hashlib.sha256(content).digest()).rstrip(b'=').decode()
        record.write(f'{name},sha256={digest},{len(content)}\n')
    record.write(f'{info}/RECORD,,\n')
    files[f'{info}/RECORD'] = record.getvalue().encode()
    wheel = f'{base_name()}-{tag}.whl'
    with zipfile.ZipFile(Path(folder) / wheel, 'w', zipfile.ZIP_DEFLATED) as archive:
        for name, content in files.items():
            entry = zipfile.ZipInfo(name, FIXED_TIME)
            entry.compress_type = zipfile.ZIP_DEFLATED
            entry.external_attr = (stat.S_IFREG | (0o755 if name == PROGRAM else 0o644)) << 16
            archive.writestr(entry, content)
    return wheel


def write_release_wheel(folder, program, library):
    """Writes the wheel that has these two files inside, for Linux on x86-64; gives back its name."""
    inside = {PROGRAM: Path(program).read_bytes(), LIBRARY: Path(library).read_bytes()}
    return write_wheel(folder, {**package_files(), **inside}, HERE_ALONE)


# The calls of a build backend

def get_requires_for_build_wheel(config_settings=None):
    return []


get_requires_for_build_editable = get_requires_for_build_sdist = get_requires_for_build_wheel


def build_wheel(wheel_directory, config_settings=None, metadata_directory=None):
    return write_wheel(wheel_directory, {**package_files(), f'{PACKAGE}/checkout.txt': f'{HERE.parent}\n'.encode()})


def build_editable(wheel_directory, config_settings=None, metadata_directory=None):
    return write_wheel(wheel_directory, {f'{PACKAGE}.pth': f'{HERE}\n'.encode()})


def build_sdist(sdist_directory, config_settings=None):
    name = f'{base_name()}.tar.gz'
    with tarfile.open(Path(sdist_directory) / name, 'w:gz', format=tarfile.PAX_FORMAT) as archive:
        for entry in ('pyproject.toml', 'README.md', 'build_backend', PACKAGE, 'tests'):
            archive.add(HERE / entry, f'{base_name()}/{entry}', filter=lambda member: None if '__pycache__' in member.name else member)
        for entry in LICENCES:
            archive.add(licence(entry), f'{base_name()}/{entry}')
        content = metadata().encode()
        member = tarfile.TarInfo(f'{base_name()}/PKG-INFO')
        member.size = len(content)
        archive.addfile(member, io.BytesIO(content))
    return name
