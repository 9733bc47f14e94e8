"""The session of the README, typed in order at other ports: each command prints what the block after it says."""
import os
import re
import subprocess
import tempfile
import unittest

from ports import free_port

TOP = os.path.join(os.path.dirname(os.path.abspath(__file__)), "..", "..")
COMMAND = re.compile(r"memcached|printf|kill|sleep|\./tkoproxy (serve|check)")
PORTS = ("11211", "11212", "11300")
MARK = "---- the next block\n"


def blocks(name):
    """The commands of a document, each with its output, or None where the text after it shows none."""
    with open(os.path.join(TOP, name), encoding="utf-8") as file:
        pieces = re.split(r"^```\w*\n(.*?)^```\n", file.read(), flags=re.M | re.S)
    shown = list(zip(pieces[1::2], pieces[2::2], pieces[3::2] + [""]))
    return [(block, following if re.match(r"\s*prints\s*\Z", between) else None)
            for block, between, following in shown if COMMAND.match(block)]


class Documents(unittest.TestCase):
    def test_the_session_of_the_readme(self):
        ports = dict(zip(PORTS, (str(free_port()) for _ in PORTS)))
        session = [(command, output) for command, output in blocks("README.md")
                   if "nc 127" in command or "&\n" in command or "tkoproxy check" in command]
        self.assertGreaterEqual(sum(output is not None for _, output in session), 4)
        script = f"echo '{MARK[:-1]}'\n".join(command + "sleep 1\n" for command, _ in session)
        for old, new in ports.items():
            script = script.replace(old, new)
        script = script.replace("./tkoproxy", '"$TKOPROXY"').replace("examples/failover.json", self.configured(ports))
        run = subprocess.run(["bash", "-c", script + "kill $(jobs -p)"], cwd=TOP, stdout=subprocess.PIPE, text=True,
                             stderr=subprocess.DEVNULL, stdin=subprocess.DEVNULL, timeout=60, check=False)
        printed = run.stdout.replace("\r", "")
        for old, new in ports.items():
            printed = printed.replace(new, old)
        for (command, output), given in zip(session, printed.split(MARK), strict=True):
            if output is not None:
                self.assertEqual((command, self.marks(given)), (command, self.marks(output)))

    def configured(self, ports):
        """The path of the example's configuration at these ports."""
        with open(os.path.join(TOP, "examples", "failover.json"), encoding="utf-8") as file:
            text = file.read()
        for old, new in ports.items():
            text = text.replace(old, new)
        copy = tempfile.NamedTemporaryFile("w", suffix=".json", encoding="utf-8")
        self.addCleanup(copy.close)
        copy.write(text)
        copy.flush()
        return copy.name

    def marks(self, text):
        """Without the number of the worker that made a mark."""
        return re.sub(r"hard:\d+", "hard:0", text)
