"""The oracle's programs: built debug and release, and asked."""

import os
import shutil
import subprocess
import tempfile

TOP = os.path.dirname(os.path.dirname(os.path.realpath(__file__)))
BUILDS = ['debug', 'release']


class Different(Exception):
    """The first difference, told in words."""


class Stopped(Exception):
    """Why nothing could be compared, and the status to end with."""


# The programs

def usable(folder):
    try:
        os.makedirs(folder, exist_ok=True)
        return os.access(folder, os.W_OK | os.X_OK)
    except OSError:
        return False


def built(scratch):
    """Builds both programs, both ways; answers the folder that has debug/ and release/."""
    package = os.path.join(TOP, 'oracle')
    env = dict(os.environ)
    cargo = shutil.which('cargo')
    if cargo is None:
        raise Stopped('no cargo on PATH that this user can run', 3)
    source = env.get('SUCCPAREN_SRC') or os.path.join(TOP, '..', 'shared', 'docs', 'src')
    env['SUCCPAREN_SRC'] = source = os.path.abspath(source)
    if not os.path.isfile(os.path.join(source, 'src', 'bitwise', 'mod.rs')):
        raise Stopped(f'no source of succparen in {source}; set SUCCPAREN_SRC', 3)
    target = env.get('CARGO_TARGET_DIR') or os.path.join(package, 'target')
    if not usable(target):
        target = os.path.join(scratch, 'target')
    env['CARGO_TARGET_DIR'] = target = os.path.abspath(target)
    home = env.get('CARGO_HOME') or os.path.join(os.path.expanduser('~'), '.cargo')
    if not usable(home):
        env['CARGO_HOME'] = os.path.join(scratch, 'cargo')
    for how in [[], ['--release']]:
        command = [cargo, 'build', '--quiet', '--offline', '--locked',
                   '--manifest-path', os.path.join(package, 'Cargo.toml')] + how
        if subprocess.run(command, env=env, cwd=package).returncode != 0:
            raise Stopped('the oracle does not build', 2)
    return target


class Oracle:
    def __init__(self, target, scratch):
        self.target, self.scratch = target, scratch

    def program(self, build, name):
        return os.path.join(self.target, build, name)

    def cases(self, name):
        return subprocess.run([self.program('debug', 'sample'), name], check=True, stdout=subprocess.PIPE).stdout

    def answers(self, build, cases, *words):
        """The answer lines to the cases, both as bytes."""
        with tempfile.TemporaryFile(dir=self.scratch) as given:
            given.write(cases)
            given.seek(0)
            done = subprocess.run([self.program(build, 'oracle'), *words], stdin=given, stdout=subprocess.PIPE)
        if done.returncode != 0:
            raise Different(f'the {build} oracle stopped with status {done.returncode}')
        return done.stdout
