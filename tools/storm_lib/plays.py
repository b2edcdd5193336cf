"""The storms, run on scripts of chance, and checked."""
import shutil
import subprocess
import tempfile
import time
from pathlib import Path

from storm_lib.log import read_log
from storm_lib.replay import checked
from storm_lib.scripts import script_of

SECONDS = 120  # for one storm


class Plays:
    """Counts what passes and fails. A storm is a program with its words, as `storm_c` or `storm_c free`."""

    def __init__(self, library, cpus=None, keep=None):
        self.library, self.cpus, self.keep = library, cpus, keep
        self.passed = self.failed = self.lines = self.unshown = 0

    def told(self, storm, script):
        program, *words = storm.split()
        command = ["taskset", "-c", self.cpus] if self.cpus else []
        ran = subprocess.run([*command, program, script, *words], capture_output=True, timeout=SECONDS)
        if ran.returncode or ran.stderr:
            return None, f"it ended by status {ran.returncode}, and said {ran.stderr[-2000:].decode(errors='replace')}"
        return ran.stdout, None

    def play(self, storm, script, folder):
        """One storm, of a script that lies in the folder."""
        path = Path(folder) / "script"
        path.write_bytes(script.text())
        try:
            text, fault = self.told(storm, path)
        except subprocess.TimeoutExpired:
            text, fault = None, f"it has no end after {SECONDS} seconds"
        faults = [fault] if fault else checked(script, text, self.library)
        if text is not None:
            (Path(folder) / "log").write_bytes(text)
        if not faults:
            self.unshown += sum(not it.shown for it in read_log(text).answers)
        self.lines += len(script.lines)
        return faults

    def played(self, storm, seed, clients, lines):
        with tempfile.TemporaryDirectory() as folder:
            faults = self.play(storm, script_of(seed, clients, lines), folder)
            self.passed += not faults
            self.failed += bool(faults)
            if not faults:
                return
            kept = self.keep or Path(tempfile.mkdtemp(prefix="storm-"))
            shutil.copytree(folder, kept, dirs_exist_ok=True)
        print(f"storm: {storm}, seed {seed}, kept in {kept}: FAILED")
        for fault in faults[:10]:
            print(f"  {fault}", flush=True)

    def play_all(self, storms, seed, scripts, clients, lines, minutes):
        """Each script with each storm; none is begun after so many minutes."""
        end = time.monotonic() + 60 * minutes if minutes else None
        for number in range(scripts):
            for storm in storms:
                if end and time.monotonic() > end:
                    return
                self.played(storm, f"{seed} {number}", clients or 2 + number % 7, lines)
