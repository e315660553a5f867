"""Packs a folder of files as an archive and as a package of Debian, with the same bytes from the same files."""
import gzip
import hashlib
import io
import os
import subprocess
import tarfile
from typing import Dict, List, NamedTuple, Optional


class Item(NamedTuple):
    """A file of the package, or a link if `target` is given."""
    content: bytes
    mode: int = 0o644
    target: Optional[str] = None


Tree = Dict[str, Item]      # by the place below /usr


def link(target: str) -> Item:
    return Item(b'', 0o777, target)


def zipped(content: bytes) -> bytes:
    """The content as `gzip -9n` packs it: without name and time."""
    target = io.BytesIO()
    with gzip.GzipFile(filename='', mode='wb', compresslevel=9, fileobj=target, mtime=0) as packed:
        packed.write(content)
    return target.getvalue()


def sums(tree: Tree, call: str = 'sha256') -> str:
    """The digests of all files, as `sha256sum` prints them."""
    return ''.join(f'{hashlib.new(call, it.content).hexdigest()}  {path}\n' for path, it in sorted(tree.items()) if it.target is None)


def folders_of(tree: Tree) -> List[str]:
    found = set()
    for path in tree:
        while '/' in path:
            path = path.rpartition('/')[0]
            found.add(path)
    return sorted(found)


def archive(tree: Tree, top: str, epoch: int) -> bytes:
    """A .tar.gz of the tree, in a folder of this name."""
    target = io.BytesIO()
    with tarfile.open(fileobj=target, mode='w', format=tarfile.USTAR_FORMAT) as tar:
        for path in ['', *sorted([*folders_of(tree), *tree])]:
            entry = tarfile.TarInfo(f'{top}/{path}'.rstrip('/'))
            entry.mtime, entry.uname, entry.gname = epoch, 'root', 'root'
            it = tree.get(path)
            if it is None:
                entry.type, entry.mode = tarfile.DIRTYPE, 0o755
                tar.addfile(entry)
            elif it.target is not None:
                entry.type, entry.mode, entry.linkname = tarfile.SYMTYPE, it.mode, it.target
                tar.addfile(entry)
            else:
                entry.mode, entry.size = it.mode, len(it.content)
                tar.addfile(entry, io.BytesIO(it.content))
    return zipped(target.getvalue())


def write(path: str, it: Item) -> None:
    os.makedirs(os.path.dirname(path), exist_ok=True)
    if it.target is not None:
        os.symlink(it.target, path)
        return
    with open(path, 'wb') as file:
        file.write(it.content)
    os.chmod(path, it.mode)


def control(fields: Dict[str, str], tree: Tree) -> bytes:
    size = sum(-(-len(it.content) // 1024) for it in tree.values()) + len(folders_of(tree))
    lines = [f'{name}: {value}' for name, value in fields.items()]
    lines.insert(-1, f'Installed-Size: {size}')
    return ('\n'.join(lines) + '\n').encode()


def package(tree: Tree, fields: Dict[str, str], epoch: int, at: str, file: str) -> None:
    """Writes the package of Debian, by way of the folder `at`, which must be empty."""
    installed = {f'usr/{path}': it for path, it in tree.items()}
    for path, it in installed.items():
        write(f'{at}/{path}', it)
    write(f'{at}/DEBIAN/control', Item(control(fields, installed)))
    write(f'{at}/DEBIAN/md5sums', Item(sums(installed, 'md5').encode()))
    for folder, _, names in os.walk(at, topdown=False):
        for name in names:
            os.utime(f'{folder}/{name}', (epoch, epoch), follow_symlinks=False)
        os.chmod(folder, 0o755)
        os.utime(folder, (epoch, epoch))
    # (more threads may part the same bytes in another way)
    words = ['dpkg-deb', '--root-owner-group', '-Zxz', '--threads-max=1', '--build', at, file]
    subprocess.run(words, check=True, stdout=subprocess.DEVNULL, env={**os.environ, 'SOURCE_DATE_EPOCH': str(epoch)})
