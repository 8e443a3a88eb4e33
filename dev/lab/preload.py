"""Libraries that are loaded before a program's own."""
import os
import shutil
import subprocess

HERE = os.path.dirname(os.path.realpath(__file__))
TOOLS = os.path.join(os.path.dirname(os.path.dirname(HERE)), 'tools')


def made(name, folder):
    """The library of this name, made in this folder of its source here or among the tools; None where it can't be made."""
    path, source = os.path.join(folder, f'{name}.so'), f'{name}.c'
    where = HERE if os.path.exists(os.path.join(HERE, source)) else TOOLS
    words = ['cc', '-O2', '-Wall', '-shared', '-fPIC', '-o', path, os.path.join(where, source)]
    return path if shutil.which('cc') and subprocess.run(words, check=False).returncode == 0 else None
