"""The program where one call to the C library is refused, by refusing.c."""
import os
import subprocess
import tempfile

from parts import PROGRAM, ServerTest, start, stop


class RefusingTest(ServerTest):
    """A test of programs of which calls are refused. What is refused is given as the variables of refusing.c."""

    @classmethod
    def setUpClass(cls):
        cls.folder = tempfile.TemporaryDirectory()
        cls.addClassCleanup(cls.folder.cleanup)
        cls.refusing = f"{cls.folder.name}/refusing.so"
        subprocess.run(["gcc", "-shared", "-fPIC", "-o", cls.refusing, "refusing.c"], check=True)

    def start_refused(self, words, refused, **options):
        """The program, of which a call is refused, and a file that then has a byte."""
        told, tells = os.pipe()
        named = {name: str(value) for name, value in refused.items()}
        env = {**os.environ, "LD_PRELOAD": self.refusing, "REFUSED_TO": str(tells), **named}
        try:
            options = {"stdout": subprocess.PIPE, "stderr": subprocess.PIPE, **options}
            return start(words, env=env, pass_fds=[tells], **options), os.fdopen(told, "rb")
        finally:
            os.close(tells)

    def run_refused(self, words, data, refused):
        """What the program comes to over this input, and whether there was a call to refuse."""
        with tempfile.TemporaryFile() as given:
            given.write(data)
            given.seek(0)
            process, told = self.start_refused([PROGRAM, *words], refused, stdin=given)
        with told:
            output, errors = process.communicate(timeout=60)
            stop(process)
            return (process.returncode, output, errors), bool(told.read())
