"""`make install` and `make deb`: what they put where, and that it runs, is described and can be removed."""

import os
import re
import shutil
import subprocess
import tempfile
import unittest
from pathlib import Path

ROOT = Path(__file__).resolve().parents[2]
PROGRAM = os.environ["PROXY"]
PING = b"*1\r\n$4\r\nPING\r\n"


def run(*words, given=b""):
    """Status and what was written, on both outputs."""
    environment = {name: value for name, value in os.environ.items() if not name.startswith(("MAKE", "MFLAGS"))}
    ran = subprocess.run([str(it) for it in words], input=given, stdout=subprocess.PIPE, stderr=subprocess.STDOUT, check=False, env=environment)
    return ran.returncode, ran.stdout.decode()


def make(*words):
    """Runs make with the program as it stands."""
    status, said = run("make", "-s", "-C", ROOT, "-o", PROGRAM, f"program={PROGRAM}", *words)
    if status:
        raise AssertionError(said)
    return said


class Package(unittest.TestCase):
    def setUp(self):
        room = tempfile.TemporaryDirectory(prefix="start-")
        self.addCleanup(room.cleanup)
        self.room = Path(room.name)

    def check_runs(self, program):
        self.assertEqual(run(program, "one", given=PING), (0, "+PONG\r\n"))

    def files(self, root):
        return sorted(str(it.relative_to(root)) for it in root.rglob("*") if not it.is_dir())


class Install(Package):
    def test_files(self):
        """Below DESTDIR and PREFIX, and nothing else."""
        make("install", f"DESTDIR={self.room}", "PREFIX=/opt/here")
        at = self.room / "opt/here"
        unit = "lib/systemd/system/cluster_proxy.service"
        self.assertEqual(self.files(self.room), [f"opt/here/{it}" for it in ["bin/cluster_proxy", unit, "share/man/man1/cluster_proxy.1"]])
        self.check_runs(at / "bin/cluster_proxy")
        self.assertIn("ExecStart=/opt/here/bin/cluster_proxy serve ", (at / unit).read_text(encoding="utf-8"))

    @unittest.skipUnless(shutil.which("systemd-analyze"), "this machine has no systemd-analyze")
    def test_unit(self):
        """systemd finds no fault in it."""
        make("install", f"PREFIX={self.room}")
        status, said = run("systemd-analyze", "verify", "--man=no", self.room / "lib/systemd/system/cluster_proxy.service")
        self.assertEqual((status, [it for it in said.splitlines() if "cluster_proxy" in it]), (0, []))


class Manual(Package):
    def setUp(self):
        super().setUp()
        make("install", f"DESTDIR={self.room}", "PREFIX=/usr")
        self.page = self.room / "usr/share/man/man1/cluster_proxy.1"

    def text(self):
        """The page without marks of troff."""
        return re.sub(r"\\f[BR]|\\&", "", self.page.read_text(encoding="utf-8")).replace("\\-", "-").replace("\\e", "\\")

    def test_help(self):
        """Each subcommand and option of the help stands in it, with its meaning."""
        text = " ".join(self.text().split())
        names = re.findall(r"(?m)^  (\w+)  ", run(PROGRAM, "--help")[1].partition("Options")[0])
        self.assertIn("serve", names)
        for name in filter(lambda it: it != "help", names):
            helped = run(PROGRAM, name, "--help")[1]
            for option, meaning in re.findall(r"(?m)^      (--\S+ \S+)  +(\S.*)$", helped):
                self.assertTrue(f"{option} {meaning}" in text, option)

    def test_operating(self):
        """Each section and each row of docs/OPERATING.md stands in it."""
        text = self.text()
        for line in (ROOT / "docs/OPERATING.md").read_text(encoding="utf-8").splitlines():
            if line.startswith("## "):
                self.assertTrue(f".SH {line[3:].upper()}\n" in text, line)
            elif line.startswith("| ") and not line.startswith("|-"):
                self.assertTrue(line.split("|")[-2].strip().replace("`", "") in text + "Meaning Counts Look at Figure of the log, or what it is", line)

    @unittest.skipUnless(shutil.which("groff"), "this machine has no groff")
    def test_troff(self):
        """troff has nothing to say of it."""
        self.assertEqual(run("groff", "-man", "-Tutf8", "-ww", "-z", self.page), (0, ""))


class Deb(Package):
    def dpkg(self, root, *words):
        """dpkg over a folder that has no package yet, whose scripts are told where it is."""
        how = [f"--root={root}", "--force-script-chrootless", "--force-depends", "--log=/dev/null"]
        status, said = run("dpkg", *how, *words)
        self.assertEqual(status, 0, said)

    def package(self):
        """The package, made anew."""
        return Path(make("deb", f"packages={self.room}").splitlines()[-1])

    def test_control(self):
        """Its version is the program's."""
        package = self.package()
        version = run(PROGRAM, "--version")[1].split()[1]
        self.assertEqual(run("dpkg-deb", "--field", package, "Package", "Version"), (0, f"Package: cluster-proxy\nVersion: {version}\n"))
        self.assertRegex(run("dpkg-deb", "--field", package, "Depends")[1], r"^libc6 \(>= 2\.\d+\)\n$")

    @unittest.skipUnless(os.geteuid() == 0, "dpkg installs only for root")
    def test_install_and_remove(self):
        """It runs where it was installed; removed it leaves what is to be edited, and purged nothing."""
        root = self.room / "root"
        for folder in ("updates", "info"):
            (root / "var/lib/dpkg" / folder).mkdir(parents=True)
        (root / "var/lib/dpkg/status").touch()
        self.dpkg(root, "--install", self.package())
        self.check_runs(root / "usr/bin/cluster_proxy")
        installed = [it for it in self.files(root) if not it.startswith("var/lib/dpkg/")]
        wanted = ["etc/default/cluster_proxy", "usr/bin/cluster_proxy", "usr/lib/systemd/system/cluster_proxy.service"]
        wanted.append("usr/share/man/man1/cluster_proxy.1.gz")
        self.assertEqual(installed, wanted)
        self.assertEqual((root / wanted[0]).stat().st_mode & 0o777, 0o640)
        self.dpkg(root, "--remove", "cluster-proxy")
        self.assertEqual([it for it in self.files(root) if not it.startswith("var/lib/dpkg/")], wanted[:1])
        self.dpkg(root, "--purge", "cluster-proxy")
        self.assertEqual([it for it in self.files(root) if not it.startswith("var/lib/dpkg/")], [])
