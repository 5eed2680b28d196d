"""SWI-Prolog found or, where this user may, installed."""
import os, shutil, subprocess

PACKAGE = 'swi-prolog-nox'


def apt_get(*words):
    return subprocess.run(['apt-get', *words], stdout=subprocess.DEVNULL).returncode == 0


def found_or_installed():
    """whether swipl is there now; it may be installed by root where there is apt-get"""
    if shutil.which('swipl') is None and os.geteuid() == 0 and shutil.which('apt-get'):
        print(f'installing {PACKAGE}', flush=True)
        install = 'install', '-y', '--no-install-recommends', PACKAGE
        apt_get(*install) or (apt_get('update') and apt_get(*install))
    return shutil.which('swipl') is not None
