"""Debian packages that tests use where they are here."""
import os
import shutil
import subprocess


def install(packages, test):
    """By apt-get, where it is here and may be run; whether they are here then is the test's to see."""
    if shutil.which('apt-get') is None or os.geteuid() != 0:
        return
    print(f'{test}: {" and ".join(packages)} not here: apt-get install', flush=True)
    quiet = {'env': {**os.environ, 'DEBIAN_FRONTEND': 'noninteractive'}, 'stdout': subprocess.DEVNULL, 'stderr': subprocess.DEVNULL}
    words = ['apt-get', 'install', '-y', '--no-install-recommends', *packages]
    if subprocess.run(words, **quiet).returncode != 0 and subprocess.run(['apt-get', 'update'], **quiet).returncode == 0:
        subprocess.run(words, **quiet)
