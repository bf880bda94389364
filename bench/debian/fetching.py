"""Sources of Debian's packages, for the scripts of this folder. Licence: public domain (CC0)."""
import glob
import shutil
import subprocess
from typing import List


def archives(folder: str, package: str) -> List[str]:
    """The archives of a package's sources that are there."""
    found = glob.glob(f'{folder}/{package}_*.orig.tar.*')
    return sorted(one for one in found if not one.endswith('.asc'))


def fetch(folder: str, package: str) -> str:
    """The folder of a package's sources, unpacked again; empty if the package can't be fetched. It is fetched
    by apt-get, which needs source packages (a line deb-src, or Types: deb deb-src), unless it is there."""
    if not archives(folder, package):
        words = ['apt-get', 'source', '--download-only', package]
        if subprocess.run(words, cwd=folder, stdout=subprocess.DEVNULL, check=False).returncode:
            return ''
    archive = archives(folder, package)[0]
    top = subprocess.run(['tar', 'tf', archive], cwd=folder, stdout=subprocess.PIPE, text=True,
                         check=True).stdout.split('/')[0]
    shutil.rmtree(f'{folder}/{top}', ignore_errors=True)
    subprocess.run(['tar', 'xf', archive], cwd=folder, check=True)
    return f'{folder}/{top}'
