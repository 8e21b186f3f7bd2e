"""Parts of the host that no command shows whole."""
from node import *


class Units(Folder):
    def test_units(self):
        "callsigns, partners of a base and their passwords, the line under way, blanks of an offset, levels of packed texts, numbers in FS lines"
        host, objects, made = HOST / "host", HOST / "target" / "host-sanitized", self.folder / "units"
        library = pathlib.Path(os.environ.get("FRINGEMOLE_LIB_DIR", ROOT / "target" / "staticlib"))
        with_no_main = [path for path in objects.glob("*.o") if path.stem not in ("main", "embed")]
        subprocess.run(["cc", "-std=c99", "-g", "-fsanitize=address,undefined", "-fno-sanitize-recover=all", "-I", host, "-I", ROOT / "include",
                        "-o", made, ROOT / "tests" / "host" / "units.c", *with_no_main, library / "libfringemole.a", library / "libfringemole_route.a", library / "libfringemole_pages.a", "-lsqlite3"], check=True)
        done = subprocess.run([made, self.node().path], capture_output=True, text=True)
        self.assertEqual((done.returncode, done.stdout + done.stderr), (0, ""))
