"""What an operator installs: the programs, their manual pages, and the sample units of docs/HOST.md."""
from node import *

PAGES = ("fringemole.1", "fringemole-replay.1")


def options_of(text):
    return set(re.findall(r"--[a-z][a-z-]*", text))


class Installed(Folder):
    def install(self, *words):
        lib = os.environ.get("FRINGEMOLE_LIB_DIR") or ROOT / "target" / "staticlib"
        subprocess.run(["make", "-s", "-C", HOST / "host", "LIB=%s" % lib, "BUILD=%s" % PLAIN.parent, "DESTDIR=%s" % self.folder, *words, "install"], check=True)
        return {str(path.relative_to(self.folder)): path for path in self.folder.rglob("*") if path.is_file()}

    def test_install(self):
        "make install puts both programs and their pages under DESTDIR and PREFIX, and nothing else"
        replay = self.folder / "replay"
        for prefix, words in (("usr/local", ()), ("opt/node", ("PREFIX=/opt/node",))):
            replay.write_bytes(b"#!/bin/sh\necho a replay\n")
            files = self.install("REPLAY=%s" % replay, *words)
            self.assertEqual(set(files), {"replay"} | {prefix + path for path in ("/bin/fringemole", "/bin/fringemole-replay", *("/share/man/man1/" + page for page in PAGES))})
            done = subprocess.run([files[prefix + "/bin/fringemole"], "--version"], stdout=subprocess.PIPE, check=True)
            self.assertRegex(done.stdout.decode(), r"^fringemole \d")
            done = subprocess.run([files[prefix + "/bin/fringemole-replay"]], stdout=subprocess.PIPE, check=True)
            self.assertEqual(done.stdout, b"a replay\n")
            shutil.rmtree(self.folder / prefix.split("/")[0])

    def test_archive_alone(self):
        "where the program of a replay isn't built, the host is installed without it"
        files = self.install("REPLAY=%s" % (self.folder / "none"))
        self.assertEqual(set(files), {"usr/local/bin/fringemole", "usr/local/share/man/man1/fringemole.1"})

    def test_page(self):
        "the manual page has each command, option and exit code of --help and no other, and groff takes it as it is"
        page = (HOST / "host" / "fringemole.1").read_text()
        plain = page.replace("\\-", "-")
        help_text = self.node().run("--help")[1].decode()
        self.assertEqual(options_of(plain), options_of(help_text))
        commands = re.findall(r"^  ([a-z]+) ", help_text.split("HOST is")[0], re.M)
        self.assertEqual(commands, [m for m in re.findall(r"\.TP\n\.BI? ([a-z]+)", page.split(".SH OPTIONS")[0])])
        self.assertEqual(re.findall(r"^\.B (\d)$", page, re.M), re.findall(r"^  (\d)  ", help_text.split("Exit codes")[1], re.M))
        if not shutil.which("groff"):
            self.skipTest("groff is not installed")
        for name in PAGES:
            done = subprocess.run(["groff", "-man", "-Tutf8", "-ww", "-z", HOST / "host" / name], stderr=subprocess.PIPE)
            self.assertEqual((done.returncode, done.stderr), (0, b""))

    def test_samples(self):
        "every fringemole line of docs/HOST.md's samples is one that the program knows"
        text = (ROOT / "docs" / "HOST.md").read_text()
        samples = re.findall(r"(?m)^    .*?/usr/local/bin/fringemole (.*mail\.base.*)$", text)
        self.assertEqual(len(samples), 4)
        known = options_of(self.node().run("--help")[1].decode())
        for sample in samples:
            self.assertLessEqual(options_of(sample), known, sample)

    def test_units(self):
        "systemd takes the units as they stand there"
        if not shutil.which("systemd-analyze"):
            self.skipTest("systemd is not installed")
        text = (ROOT / "docs" / "HOST.md").read_text()
        units = re.findall(r"(?ms)^`(fringemole[^`]*\.(?:service|timer))`:\n\n((?:    [^\n]*\n|\n)+)", text)
        self.assertEqual(len(units), 3)
        paths = []
        for name, body in units:
            paths.append(self.folder / name)
            paths[-1].write_text(re.sub(r"(?m)^    ", "", body).replace("/usr/local/bin/fringemole", str(PLAIN)))
        done = subprocess.run(["systemd-analyze", "verify", "--man=no", *paths], stdout=subprocess.PIPE, stderr=subprocess.STDOUT)
        said = [line for line in done.stdout.decode().splitlines() if "fringemole" in line]
        self.assertEqual(said, [])
