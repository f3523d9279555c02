"""The packages: they are the same twice, each works where nothing else is, and what completes words knows all commands and reasons.

What a missing tool makes or tries, and what needs a release of these sources, is skipped.
"""
import os
import re
import shutil
import subprocess
import sys
import tempfile
import unittest
import zipfile

TOP = os.path.realpath(os.path.join(os.path.dirname(os.path.realpath(__file__)), '..', '..'))
PACKAGES = os.path.join(TOP, 'tools', 'packages')
TEXT = os.path.join(TOP, 'examples', 'hospitals.txt')
# What the script, the tools and a virtual environment call. The kit isn't there.
PLAIN = ('bash', 'cat', 'cmp', 'cut', 'dirname', 'env', 'find', 'getconf', 'grep', 'head', 'paste', 'python3', 'readlink', 'sed',
         'sh', 'sha256sum', 'sort', 'tail', 'uname', 'xargs')


def read(*path):
    with open(os.path.join(*path), 'rb') as file:
        return file.read()


def release():
    """What `tools/release --check` says."""
    return subprocess.run([os.path.join(TOP, 'tools', 'release'), '--check'], stdout=subprocess.PIPE).stdout.decode()


def completion(shell):
    return subprocess.run([PACKAGES, '--completion', shell], stdout=subprocess.PIPE, check=True).stdout.decode()


def completed(line):
    """What bash makes of a line at whose end TAB is hit."""
    words = line.split(' ')
    calls = f'{completion("bash")}\ncompopt() {{ :; }}\nCOMP_LINE={line!r} COMP_POINT={len(line)}\n' \
        f'_matchbench matchbench {words[-1]!r}\nprintf "%s\\n" "${{COMPREPLY[@]}}"\n'
    return subprocess.run(['bash', '-c', calls], stdout=subprocess.PIPE, check=True).stdout.decode().split()


class Completions(unittest.TestCase):
    def test_words(self):
        with open(os.path.join(TOP, 'docs', 'FORMATS.md'), encoding='utf-8') as file:
            page = file.read().split('\n## The command line\n')[1].split('\n## ')[0]
        commands = re.findall(r'^\| `([a-z]+)[^`]*` \|', page, re.M)
        for shell in ('bash', 'zsh', 'fish'):
            text = completion(shell)
            for word in [*commands, '--version', 'NotStable', 'NoOddParty', 'side=reviewers', 'shape=rooms', 'form=json']:
                self.assertIn(word, text, shell)
            if shutil.which(shell):
                done = subprocess.run([shell, '-n'], input=text.encode(), stderr=subprocess.PIPE)
                self.assertEqual(done.stderr, b'', shell)

    def test_bash(self):
        self.assertEqual(completed('matchbench so'), ['solve'])
        self.assertEqual(completed('matchbench solve '), ['side=proposers', 'side=reviewers', 'form=json'])
        self.assertEqual(completed('matchbench list limit=5 '), ['after=', 'form=json'])
        self.assertEqual(completed('matchbench weight by=g'), ['given'])
        self.assertEqual(completed('matchbench check '), [])
        self.assertEqual(completed('matchbench --unproved med'), ['median'])
        self.assertEqual(completed('matchbench --explain CutD'), ['CutDiffers'])

    @unittest.skipUnless(shutil.which('fish'), 'fish is missing')
    def test_fish(self):
        with tempfile.TemporaryDirectory() as home:
            how = {'input': completion('fish').encode(), 'stdout': subprocess.PIPE, 'env': {**os.environ, 'HOME': home}}
            for line, words in (('matchbench so', ['solve']), ('matchbench list limit=5 ', ['after=', 'form=json']),
                                ('matchbench check ', []), ('matchbench --explain CutD', ['CutDiffers'])):
                done = subprocess.run(['fish', '--no-config', '-c', f'source; complete -C "{line}"'], **how)
                self.assertEqual([it.split('\t')[0] for it in done.stdout.decode().splitlines()], words, line)


@unittest.skipUnless(release().startswith('current'), 'release/ is not of these sources')
class Packages(unittest.TestCase):
    @classmethod
    def setUpClass(cls):
        cls.room = tempfile.mkdtemp()
        cls.made = os.path.join(cls.room, 'made')
        cls.sums = cls.make(cls.made, 0o022)
        cls.names = os.listdir(cls.made)
        os.mkdir(os.path.join(cls.room, 'plain'))
        for it in PLAIN:
            found = sys.executable if it == 'python3' else shutil.which(it)
            if found:
                os.symlink(found, os.path.join(cls.room, 'plain', it))
        # Where the packages are used: no kit, nothing of the repository.
        cls.plain = {'PATH': os.path.join(cls.room, 'plain'), 'HOME': cls.room, 'LANG': 'C.UTF-8'}

    @classmethod
    def tearDownClass(cls):
        shutil.rmtree(cls.room)

    @staticmethod
    def make(folder, mask):
        """Makes the packages, and returns their checksums."""
        subprocess.run([PACKAGES, folder], stdout=subprocess.DEVNULL, check=True, preexec_fn=lambda: os.umask(mask))
        return read(folder, 'SHA256SUMS').decode()

    def package(self, ending):
        return os.path.join(self.made, next(it for it in self.names if it.endswith(ending)))

    def call(self, *words, text=b'', **env):
        how = {'stdout': subprocess.PIPE, 'stderr': subprocess.PIPE, 'cwd': self.room, 'env': {**self.plain, **env}}
        done = subprocess.run(words, input=text, **how)
        self.assertEqual((done.returncode, done.stderr), (0, b''), words)
        return done.stdout

    def has_program(self, prefix):
        """The script below a prefix answers, and says the version and the program."""
        script = os.path.join(prefix, 'bin', 'matchbench')
        self.assertEqual(self.call(script, 'solve', text=read(TEXT)), read(TOP, 'examples', 'hospitals.solve'))
        program = os.path.join(prefix, 'libexec', 'matchbench', 'matchbench')
        self.assertEqual(read(program), read(TOP, 'release', 'matchbench'))
        version = re.search(rb'^version: "(.*)"$', read(TOP, 'CITATION.cff'), re.M).group(1)
        said = self.call(script, '--version')
        self.assertTrue(said.startswith(b'matchbench %s\nprogram %s (released)\n' % (version, program.encode())), said)
        self.assertIn(b'solve [side=', self.call(script, '--help'))
        self.assertIn(b'breach or blocks', self.call(script, '--explain', 'NotStable'))
        trim = os.path.join(prefix, 'bin', 'matchtrim')
        trimmed = self.call(trim, text=read(TEXT))
        self.assertEqual(self.call(script, 'solve', text=trimmed), read(TOP, 'examples', 'hospitals.solve'))
        self.assertTrue(self.call(trim, '--version').startswith(b'matchtrim %s\n' % version))
        self.assertIn(b'matchtrim < INSTANCE > TRIMMED', self.call(trim, '--help'))

    def has_module(self, prefix, python=sys.executable, **env):
        """The module finds the program below a prefix."""
        asked = 'import matchbench; print(matchbench.find_program()); print(matchbench.Instance.make("random", 8, 1).solve().ranks)'
        found, ranks = self.call(python, '-c', asked, **env).decode().splitlines()
        self.assertEqual(found, os.path.join(prefix, 'libexec', 'matchbench', 'matchbench'))
        self.assertTrue(re.fullmatch(r'\(\d(, \d){7}\)', ranks), ranks)

    def has_tools(self, prefix):
        """The tools of the folder are there but for those of developers, each with a page, and find the program there."""
        names = {it for it in os.listdir(os.path.join(TOP, 'tools')) if os.access(os.path.join(TOP, 'tools', it), os.X_OK)
                 and os.path.isfile(os.path.join(TOP, 'tools', it))} - {'packages', 'release'}
        found = [it for it in os.listdir(os.path.join(prefix, 'bin')) if it.startswith('matchbench-')]
        self.assertEqual(sorted(found), sorted('matchbench-' + it.replace('_', '-') for it in names))
        for it in found:
            self.assertTrue(self.call(os.path.join(prefix, 'bin', it), '--help'), it)
            self.assertTrue(os.path.isfile(os.path.join(prefix, 'share', 'man', 'man1', it + '.1.gz')), it)
        vectors = self.call(os.path.join(prefix, 'bin', 'matchbench-list-all'), TEXT)
        listed = read(TOP, 'examples', 'hospitals.list').splitlines(True)
        self.assertEqual(vectors, b''.join(it for it in listed if it.startswith(b'vector ')))

    def test_same_twice(self):
        self.assertEqual(self.make(os.path.join(self.room, 'again'), 0o077), self.sums)

    def test_archive(self):
        shutil.unpack_archive(self.package('.tar.xz'), os.path.join(self.room, 'archive'))
        prefix, = (os.path.join(self.room, 'archive', it) for it in os.listdir(os.path.join(self.room, 'archive')))
        self.has_program(prefix)
        self.has_tools(prefix)
        self.has_module(prefix, PYTHONPATH=os.path.join(prefix, 'share', 'matchbench', 'python'))

    @unittest.skipUnless(shutil.which('dpkg-deb'), 'dpkg-deb is missing')
    def test_debian(self):
        root = os.path.join(self.room, 'root')
        subprocess.run(['dpkg-deb', '-x', self.package('.deb'), root], check=True)
        prefix = os.path.join(root, 'usr')
        self.has_program(prefix)
        if os.path.exists('/usr/bin/python3'):
            self.has_tools(prefix)
        self.has_module(prefix, PYTHONPATH=os.path.join(prefix, 'lib', 'python3', 'dist-packages'))

    @unittest.skipUnless(shutil.which('dpkg-deb') and shutil.which('lintian'), 'dpkg-deb or lintian is missing')
    def test_lintian(self):
        words = ['lintian', '--allow-root', '--show-overrides', self.package('.deb')]
        said = subprocess.run(words, stdout=subprocess.PIPE).stdout.decode()
        self.assertEqual([it for it in said.splitlines() if it[0] in 'EO'],
                         [f'O: matchbench: unstripped-binary-or-object [usr/libexec/matchbench/{it}]'
                          for it in ('matchbench', 'matchtrim')], said)

    def test_wheel(self):
        with zipfile.ZipFile(self.package('.whl')) as file:
            name = next(it for it in file.namelist() if it.endswith('libexec/matchbench/matchbench'))
            self.assertEqual(file.read(name), read(TOP, 'release', 'matchbench'))
        prefix = os.path.join(self.room, 'venv')
        if subprocess.run([sys.executable, '-m', 'venv', prefix], stdout=subprocess.DEVNULL, stderr=subprocess.DEVNULL).returncode:
            self.skipTest('python3 makes no virtual environment with pip here')
        python = os.path.join(prefix, 'bin', 'python')
        pip = [python, '-m', 'pip', '--disable-pip-version-check', '--no-cache-dir']
        # The wheel, and then the same from the repository.
        for given in (self.package('.whl'), os.path.join(TOP, 'python')):
            self.call(*pip, 'install', '--no-index', given)
            self.has_program(prefix)
            self.has_module(prefix, python)
            self.call(*pip, 'uninstall', '-y', 'matchbench')
            self.assertFalse(os.path.exists(os.path.join(prefix, 'libexec', 'matchbench', 'matchbench')))


if __name__ == '__main__':
    unittest.main()
