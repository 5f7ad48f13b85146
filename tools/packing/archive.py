"""A Debian package as files, links and what dpkg is told, written by `dpkg-deb` so that the same input gives the same bytes."""
import gzip
import hashlib
import os
import pathlib
import subprocess
import tempfile


class Archive:
    """The files of a package by their paths below `/`, each with its mode, its links, and its control files."""

    def __init__(self, moment):
        self.moment, self.files, self.links, self.control = moment, {}, {}, {}

    def add(self, path, content, mode=0o644):
        """Puts a file at a path: a text, bytes, or those of another file."""
        if isinstance(content, pathlib.Path):
            content = content.read_bytes()
        self.files[path] = (content.encode() if isinstance(content, str) else content, mode)

    def add_packed(self, path, content):
        """Puts a text there packed by gzip."""
        self.add(f'{path}.gz', gzip.compress(content.encode(), 9, mtime=0))

    def add_folder(self, path, folder):
        """Puts the files of a folder there. Those that can be run stay so."""
        for file in sorted(file for file in folder.rglob('*') if file.is_file() and '__pycache__' not in file.parts):
            self.add(f'{path}/{file.relative_to(folder)}', file, 0o755 if file.stat().st_mode & 0o100 else 0o644)

    def link(self, path, target):
        self.links[path] = target

    def kilobytes(self):
        """The size that it takes when it is installed, as Debian counts it."""
        return sum(-(-len(content) // 1024) for content, _ in self.files.values()) + len(self.links)

    def write(self, folder, file):
        """Writes the package to a file, by way of a folder."""
        self.control['md5sums'] = (''.join(f'{hashlib.md5(content).hexdigest()}  {path}\n' for path, (content, _) in sorted(self.files.items())), 0o644)
        settings = {path for path in self.files if path.startswith('etc/')}
        self.control['conffiles'] = (''.join(f'/{path}\n' for path in sorted(settings)), 0o644)
        for name, (text, mode) in self.control.items():
            self.add(f'DEBIAN/{name}', text, mode)
        for path, (content, mode) in self.files.items():
            (folder / path).parent.mkdir(parents=True, exist_ok=True)
            (folder / path).write_bytes(content)
            (folder / path).chmod(mode)
        for path, target in self.links.items():
            (folder / path).parent.mkdir(parents=True, exist_ok=True)
            (folder / path).symlink_to(target)
        settle(folder, self.moment)
        subprocess.run(['dpkg-deb', '--root-owner-group', '--threads-max=1', '-Zxz', '--build', folder, file], stdout=subprocess.DEVNULL,
                       env={**os.environ, 'SOURCE_DATE_EPOCH': str(self.moment)}, check=True)


def settle(folder, moment):
    """Gives folders one mode, and all that is in them one time."""
    for path in sorted(folder.rglob('*'), reverse=True):
        if path.is_dir() and not path.is_symlink():
            path.chmod(0o755)
        os.utime(path, (moment, moment), follow_symlinks=False)
    folder.chmod(0o755)
    os.utime(folder, (moment, moment))


def write(archive, file):
    """Writes a package to a file."""
    with tempfile.TemporaryDirectory() as folder:
        archive.write(pathlib.Path(folder), file)
