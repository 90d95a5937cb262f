"""Tests of scripts/release and scripts/install, for scripts/try_scripts: packed twice, unpacked, installed and used without a toolchain."""
import hashlib
import os
import re
import shutil
import subprocess
import tempfile

from trying import HERE, MISSIONS, PROGRAMS, TOP, read, run, want

KIT = 'rattle-kit-test'


def packed(folder, name):
    """A release with a log of the gate, packed with a line of the kit."""
    log, path = os.path.join(folder, 'gate.log'), os.path.join(folder, name)
    with open(log, 'w') as file:
        file.write('some crate\n9 passed, 0 failed\n')
    status, out, err = run([os.path.join(HERE, 'release'), path, log], SOTER_KIT=KIT)
    want(status == 0, f'status {status}, {out} {err}')
    with open(path, 'rb') as file:
        return path, hashlib.sha256(file.read()).hexdigest()


def unpacked(folder):
    path, _ = packed(folder, 'one.tar.gz')
    want(subprocess.run(['tar', '-C', folder, '-xzf', path]).returncode == 0, 'it is no tar file')
    found, = [name for name in os.listdir(folder) if name.startswith('soter-')]
    return os.path.join(folder, found)


def bare(words, text='', **more):
    """Without the toolchain, and with nothing else of this environment."""
    path = more.pop('path', '') + os.pathsep + os.pathsep.join(sorted({os.path.dirname(shutil.which('python3')), '/usr/bin', '/bin'}))
    done = subprocess.run(words, input=text.encode('latin-1'), stdout=subprocess.PIPE, stderr=subprocess.PIPE, env={'PATH': path.strip(os.pathsep), **more}, cwd='/')
    return done.returncode, done.stdout.decode('latin-1'), done.stderr.decode('utf-8', 'replace')


def releases_are_the_same_twice():
    with tempfile.TemporaryDirectory() as folder:
        want(packed(folder, 'one.tar.gz')[1] == packed(folder, 'two.tar.gz')[1], 'two releases of the same sources differ')


def releases_say_what_they_are():
    """The version, the kit's line, the gate's last line, and a checksum for each file."""
    with tempfile.TemporaryDirectory() as folder:
        tree = unpacked(folder)
        version = read(os.path.join(HERE, 'version')).strip()
        want(read(os.path.join(tree, 'RELEASE')).split('\n') == [version, f'kit: {KIT}', 'gate: 9 passed, 0 failed', ''], read(os.path.join(tree, 'RELEASE')))
        want(os.path.basename(tree) == 'soter-' + version.split()[1], tree)
        sums = read(os.path.join(tree, 'SHA256SUMS')).split('\n')[:-1]
        for line in sums:
            wanted, name = line.split('  ')
            with open(os.path.join(tree, name), 'rb') as file:
                want(hashlib.sha256(file.read()).hexdigest() == wanted, name)
        files = sum(len(names) for _, _, names in os.walk(tree))
        want(len(sums) == files - 1, f'{len(sums)} checksums for {files} files')
        want(not re.search(r'\.rt$|\.antt$|__pycache__', '\n'.join(sums), re.M), 'sources or leftovers are packed')


def releases_are_installed_and_used():
    """check, fly, regions, guard, hints, pictures and tables, in an environment without the toolchain; twice, as an update is."""
    with tempfile.TemporaryDirectory() as folder:
        tree, prefix = unpacked(folder), os.path.join(folder, 'prefix')
        for _ in range(2):
            status, out, err = bare([os.path.join(tree, 'scripts', 'install'), prefix])
            want(status == 0 and 'installed: soter' in out, f'status {status}, {out} {err}')
        at = os.path.join(prefix, 'bin')
        want(bare(['soter', '--version'], path=at)[1] == read(os.path.join(HERE, 'version')), 'the version')
        line, line1, drone = (read(os.path.join(MISSIONS, name)) for name in ('line.mission', 'line1.mission', 'drone.mission'))
        rows = [(['soter', 'check'], line, 'accepted'), (['soter', 'fly'], line1, 'soter trace'), (['soter', 'regions'], read(os.path.join(MISSIONS, 'line.program')), '%certificate'),
                (['soter_regions'], read(os.path.join(MISSIONS, 'line.program')), '%certificate'), (['soter', 'picture'], drone, '<svg'), (['soter', 'table'], drone, 'tick,'),
                (['soter_guard'], read(os.path.join(MISSIONS, 'guard', 'calm.talk')), 'accepted'), (['soter_bridge', 'ahead', 'obstacle', '2'], read(os.path.join(MISSIONS, 'bridge', 'camera.bridge')), 'soter trace')]
        for words, text, said in rows:
            if words == ['soter_guard'] and PROGRAMS['soter_guard'].endswith('.py'):
                # its second program stands in, which does not run alone
                continue
            status, out, err = bare(words, text, path=at)
            want(status == 0 and said in out, f'{words}: status {status}, {out[:100]!r} {err}')
        status, out, err = bare(['soter', 'check'], line.replace('[[-10,10]],', ''), path=at, SOTER_HINTS='1')
        want(status == 1 and 'add a cell with the point' in err, f'{err}')
        for path in ('share/man/man1/soter.1', 'share/bash-completion/completions/soter', 'share/zsh/site-functions/_soter', 'lib/soter/docs/TUTORIAL.md'):
            want(os.path.exists(os.path.join(prefix, path)), f'there is no {path}')


def words_are_completed():
    """By bash, the words of ./soter and the operators of a formula; all known words are there."""
    script = os.path.join(HERE, 'completion', 'soter.bash')

    def complete(*words):
        quoted = ' '.join(f"'{word}'" for word in words)
        return bare(['bash', '-c', f'source {script}; COMP_WORDS=({quoted}); COMP_CWORD={len(words) - 1}; _soter 2>/dev/null; echo "${{COMPREPLY[*]}}"'])[1].split()
    want(complete('soter', 're') == ['replay', 'recover', 'regions'], complete('soter', 're'))
    want(complete('soter', 'watch', 'and(on') == ['and(once('], complete('soter', 'watch', 'and(on'))
    known = re.search(r"^known='(.*)'", read(os.path.join(TOP, 'soter')), re.M)[1].split()
    want(set(known) <= set(complete('soter', '')), f'{complete("soter", "")}')


TESTS = (releases_are_the_same_twice, releases_say_what_they_are, releases_are_installed_and_used, words_are_completed)
