"""A program that meets another C library than the system's."""
import os
import subprocess

HERE = os.path.dirname(os.path.abspath(__file__))


def environment(case, name, **variables):
    """The environment in which a program has the functions of NAME.c before all others."""
    library = case.path(name + '.so')
    if not os.path.exists(library):
        flags = ['-Wall', '-Wextra', '-Werror', '-O1', '-shared', '-fPIC']
        subprocess.run(['gcc', *flags, os.path.join(HERE, name + '.c'), '-o', library, '-ldl'], check=True)
    options = os.environ['ASAN_OPTIONS'] + ':verify_asan_link_order=0'
    return {**os.environ, 'LD_PRELOAD': library, 'ASAN_OPTIONS': options, **variables}
