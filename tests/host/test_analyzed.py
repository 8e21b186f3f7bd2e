"""The host's sources under gcc's analyzer and cppcheck."""
from node import *

ANALYZE = ROOT / "tests" / "host" / "analyze"
PLANTED = {
    "gcc": "#include <stdlib.h>\nint f(void);\nint f(void)\n{\n    int *a = malloc(sizeof *a), b;\n\n    if (!a)\n        return 0;\n    *a = 1;\n"
           "    b = *a;\n    free(a);\n    free(a);\n    return b;\n}\n",
    "cppcheck": "#include <stdio.h>\nint f(void);\nint f(void)\n{\n    char a[2];\n\n    return snprintf(a, sizeof a, \"%d\", 1L == 1 ? 1 : 0) + fflush(stdin);\n}\n",
}


class Analyzed(Folder):
    def test_clean(self):
        "gcc's analyzer and cppcheck find nothing in the host"
        done = subprocess.run([ANALYZE], capture_output=True, text=True)
        self.assertEqual(done.returncode, 0, done.stdout + done.stderr)

    def test_planted(self):
        "each of them finds a fault that is planted for it"
        for tool, source in PLANTED.items():
            if not shutil.which(tool):
                continue
            folder = self.folder / tool
            folder.mkdir()
            (folder / "planted.c").write_text(source)
            self.assertNotEqual(subprocess.run([ANALYZE, folder], capture_output=True).returncode, 0, tool)
