"""Tries a release as its users would: from its files alone, without rights, and without the kit."""
import functools
import glob
import os
import re
import shutil
import subprocess
import sys
import tempfile
import unittest
import zipfile

from release import shells
from release.debian import libc_of
from release.told import ROOT, help_of, text_at

# without /usr/local/bin, where a kit may be
CLEAN = {"PATH": "/usr/bin:/bin:/usr/sbin:/sbin", "HOME": "/nonexistent", "LANG": "C.UTF-8"}
IS_ROOT = os.geteuid() == 0
NOBODY = ["setpriv", "--reuid=65534", "--regid=65534", "--clear-groups", "--no-new-privs"]


def needs(*programs):
    """Leaves a test out where a program is not here, and says so."""
    missing = [it for it in programs if shutil.which(it, path=CLEAN["PATH"]) is None]
    return unittest.skipIf(missing, f"not here: {', '.join(missing)}")


def run(*words, where=None, env=None, **more):
    """Runs a command to its end; a status but 0 fails the test and shows what it told."""
    how = {"cwd": where, "env": env or CLEAN, "stdin": subprocess.DEVNULL, "stdout": subprocess.PIPE, "stderr": subprocess.STDOUT}
    ran = subprocess.run(words, **{**how, "timeout": 600, **more}, check=False)
    if ran.returncode:
        raise AssertionError(f"{' '.join(words)}: status {ran.returncode}\n{ran.stdout.decode(errors='replace')[-3000:]}")
    return ran.stdout


def can_write(user, folder):
    """Whether a command with these words before it may write in a folder."""
    try:
        return subprocess.run([*user, "test", "-w", folder], stderr=subprocess.DEVNULL, check=False).returncode == 0
    except OSError:
        return False


def recipes(text):
    """The commands of a document that start a program of this folder, and what should come, None where nothing is said."""
    for block, wanted in re.findall(r"^```sh\n(.*?)^```\n(?:\n```\n(.*?)^```\n)?", text, re.M | re.S):
        lines = block.replace("\\\n", " ").splitlines()
        commands = [line for line in lines if re.match(r"\./(fillcsv|flashfill) ", line)]
        for command in commands:
            yield command.replace(" --try", ""), wanted if wanted and len(commands) == 1 else None


class ReleaseTest(unittest.TestCase):
    """What stands in the files of a release."""

    release = work = unpacked = None

    @classmethod
    def setUpClass(cls):
        cls.release.make(f"{cls.work}/one")
        place = f"{cls.work}/user"
        os.makedirs(place)
        # the words that start a command without rights
        cls.user = []
        if IS_ROOT:
            os.chown(place, 65534, 65534)
            cls.user = NOBODY if can_write(NOBODY, place) else []
            if not cls.user:
                print(f"release: nobody cannot write below {cls.work}, so root runs the programs")
        run(*cls.user, "tar", "-xzf", glob.glob(f"{cls.work}/one/*.tar.gz")[0], where=place)
        cls.unpacked = glob.glob(f"{place}/*")[0]

    def test_same_bytes(self):
        self.release.make(f"{self.work}/two")
        names = sorted(os.listdir(f"{self.work}/one"))
        self.assertEqual(names, sorted(os.listdir(f"{self.work}/two")))
        for name in names:
            with open(f"{self.work}/one/{name}", "rb") as one, open(f"{self.work}/two/{name}", "rb") as two:
                self.assertTrue(one.read() == two.read(), f"two runs differ in {name}")

    def test_sums(self):
        run("sha256sum", "--check", "--strict", "SHA256SUMS", where=f"{self.work}/one")
        told = {line.split()[1] for line in open(f"{self.work}/one/SHA256SUMS", encoding="utf-8")}
        self.assertEqual(told, set(os.listdir(f"{self.work}/one")) - {"SHA256SUMS"})

    def test_version(self):
        version = self.release.version
        self.assertIn(f"\n## [{version}] - ", text_at("CHANGELOG.md"))
        named = re.findall(r"flashfill[-_](\d[\d.]*)[-_]", text_at("README.md"))
        self.assertEqual(set(named), {version}, "the names of files in README")
        for wheel in glob.glob(f"{self.work}/one/*.whl"):
            self.assertTrue(os.path.basename(wheel).startswith(f"flashfill-{version}-"), f"{wheel} is not of version {version}")
        for extension in glob.glob(f"{self.work}/one/*.oxt"):
            with zipfile.ZipFile(extension) as files:
                self.assertIn(f'<version value="{version}"/>', files.read("description.xml").decode())
        if not any("--version" in it.names for it in help_of(self.release.fillcsv).options):
            self.skipTest("this fillcsv has no --version")
        self.assertEqual(run(self.release.fillcsv, "--version").decode(), f"fillcsv {version}\n")

    def test_recipes(self):
        """Those of README, by a user without rights and without the kit."""
        self.assertIsNone(shutil.which("rt", path=CLEAN["PATH"]))
        tried = compared = 0
        for command, wanted in recipes(text_at("README.md")):
            how = {"cwd": self.unpacked, "env": CLEAN, "stdin": subprocess.DEVNULL, "timeout": 600, "check": False}
            ran = subprocess.run([*self.user, "sh", "-c", command], **how, stdout=subprocess.PIPE, stderr=subprocess.PIPE)
            out, err = ran.stdout.decode(), ran.stderr.decode()
            self.assertIn(ran.returncode, (0, 1), f"{command}\n{err}")
            tried += 1
            if wanted is not None:
                compared += 1
                self.assertIn(wanted, (out, out + err, err), command)
        self.assertGreater(tried, 3)
        self.assertGreater(compared, 1)
        with open(f"{self.unpacked}/label.rule", encoding="utf-8") as rule:  # which one of them saves
            self.assertEqual(rule.read(), text_at("examples/label.rule"))

    @needs("ldd")
    def test_libraries(self):
        for name in ("flashfill", "fillcsv"):
            told = run("ldd", f"{self.unpacked}/{name}").decode().split("\n")
            libraries = {line.split()[0].rpartition("/")[2] for line in told if line.strip()}
            self.assertLessEqual(libraries, {"linux-vdso.so.1", "libc.so.6", "ld-linux-x86-64.so.2"})
        # README may promise a newer C library than this build needs, never an older one
        oldest = libc_of([self.release.flashfill, self.release.fillcsv])
        told = re.search(r"glibc (\d+)\.(\d+) or later", text_at("README.md"))
        self.assertIsNotNone(told)
        self.assertLessEqual([int(it) for it in oldest.split(".")[:2]], [int(it) for it in told.groups()])

    @needs("mandoc")
    def test_manual(self):
        pages = glob.glob(f"{self.unpacked}/share/man/*/*")
        self.assertEqual(len(pages), 3)
        for page in pages:
            self.assertEqual(run("mandoc", "-T", "lint", page).decode(), "")
            run("mandoc", "-T", "utf8", page)

    @needs("make")
    def test_install(self):
        words = ["make", "-C", ROOT, f"DESTDIR={self.work}/root", "PREFIX=/opt/it"]
        words += [f"FLASHFILL={self.release.flashfill}", f"FILLCSV={self.release.fillcsv}"]
        env = {**os.environ, "MAKEFLAGS": ""}
        run(*words, "install", env=env)
        self.assertIn(b"Usage:", run(f"{self.work}/root/opt/it/bin/fillcsv", "--help"))
        run(*words, "uninstall", env=env)
        self.assertEqual([it for _, _, names in os.walk(f"{self.work}/root") for it in names], [])


class PackageTest(unittest.TestCase):
    """The Debian package."""

    @classmethod
    def setUpClass(cls):
        cls.packages = glob.glob(f"{ReleaseTest.work}/one/*.deb")

    def setUp(self):
        if not self.packages:
            self.skipTest("there is no package")

    @needs("lintian")
    def test_lintian(self):
        words = ["lintian", "--fail-on", "error,warning", "--tag-display-limit", "0", *self.packages]
        env = {**CLEAN, "LINTIAN_PROFILE": "debian", "TMPDIR": ReleaseTest.work}
        told = run(*words[:1], *(["--allow-root"] if IS_ROOT else []), *words[1:], env=env).decode()
        self.assertEqual([line for line in told.splitlines() if line[:2] in ("E:", "W:")], [])

    @needs("dpkg")
    @unittest.skipUnless(IS_ROOT, "packages are installed by root alone")
    def test_installed(self):
        """In a root that has the C library and nothing else: installed, run there, and removed."""
        root, state = f"{ReleaseTest.work}/fresh", f"{ReleaseTest.work}/fresh/var/lib/dpkg"
        os.makedirs(f"{state}/updates")
        os.makedirs(f"{state}/info")
        with open(f"{state}/status", "wb") as file:
            file.write(run("dpkg-query", "--status", "libc6") + b"\n")
        for it in ("/lib64/ld-linux-x86-64.so.2", "/lib/x86_64-linux-gnu/libc.so.6"):
            os.makedirs(os.path.dirname(root + it), exist_ok=True)
            shutil.copy(it, root + it)
        before = files_below(root)
        run("dpkg", f"--root={root}", "--install", *self.packages)
        self.assertIn("usr/bin/fillcsv", files_below(root))
        inside = functools.partial(run, "chroot", root, "/usr/bin/fillcsv")
        sheet = "/usr/share/doc/flashfill/examples/people.csv"
        told = inside(sheet, "--to", "Label", "--from", "Name,City", "--state", stderr=subprocess.DEVNULL)
        with open(f"{ROOT}/examples/people-filled.csv", "rb") as file:
            self.assertEqual(told, file.read())
        run("dpkg", f"--root={root}", "--purge", "flashfill")
        self.assertEqual({it for it in files_below(root) - before if not it.startswith("var/")}, set())


def files_below(folder):
    return {os.path.relpath(f"{at}/{name}", folder) for at, _, names in os.walk(folder) for name in names}


class ShellTest(unittest.TestCase):
    """What the shells complete."""

    @classmethod
    def setUpClass(cls):
        cls.folder = f"{ReleaseTest.work}/shells"
        os.makedirs(cls.folder)
        with open(f"{cls.folder}/sheet.csv", "w", encoding="utf-8") as file:
            file.write('\ufeff"Full name","Price, net",City,Year\r\nx,1,y,2\n')
        for name in ("label.rule", "notes.txt"):
            with open(f"{cls.folder}/{name}", "w", encoding="utf-8"):
                pass

    def asked(self, complete, script):
        def ask(*words):
            return sorted({it.replace("\\", "") for it in complete(f"{ReleaseTest.unpacked}/share/{script}", ["fillcsv", *words], self.folder)})

        self.assertEqual(ask("--st"), ["--state", "--strict"])
        self.assertEqual(ask("sheet.csv", "--to", ""), ["City", "Full name", "Price, net", "Year"])
        self.assertEqual(ask("--state", "sheet.csv", "--to", "C"), ["City"])
        self.assertIn(ask("sheet.csv", "--from", "City,Y"), (["City,Year"], ["Year"]))
        self.assertEqual(ask("sheet.csv", "--only", ""), ["sure"])
        self.assertIn("label.rule", ask("--rule", ""))
        self.assertEqual(ask("sh"), ["sheet.csv"])

    @unittest.skipUnless(shells.HAS_BASH, "not here: bash-completion")
    def test_bash(self):
        self.asked(shells.bash, "bash-completion/completions/fillcsv")

    @needs("zsh")
    def test_zsh(self):
        self.asked(shells.zsh, "zsh/site-functions/_fillcsv")

    @needs("fish")
    def test_fish(self):
        self.asked(shells.fish, "fish/vendor_completions.d/fillcsv.fish")


def try_release(release):
    """Runs all tests on a release, says what was left out, and ends with status 1 where one failed."""
    load = unittest.defaultTestLoader.loadTestsFromTestCase
    suite = unittest.TestSuite(load(it) for it in (ReleaseTest, PackageTest, ShellTest))
    with tempfile.TemporaryDirectory(prefix="release-") as work:
        os.chmod(work, 0o755)
        ReleaseTest.release, ReleaseTest.work = release, work
        ran = unittest.TextTestRunner(stream=sys.stdout, verbosity=2).run(suite)
    sys.exit(not ran.wasSuccessful())
