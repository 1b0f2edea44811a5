#!/usr/bin/env python3
"""Tries which programs the script `obsidian` takes for proved, with a stand-in for the toolchain.

  python3 tests/launcher.py

Each test has a small repository of its own. The stand-in notes each build, and the program that it builds writes the words that it is run with.
"""
import os
import shutil
import subprocess
import tempfile
import time
import unittest

TOP = os.path.dirname(os.path.dirname(os.path.abspath(__file__)))
SOURCE = "crates/obsidian/src/main.rt"
# Names of sources of every kind, the last of which isn't UTF-8.
ODD = ["a b.rt", "a\nb.rt", " x.antt", "-n.rt", "é\u20ac.rt", "a\\b'\"$`*.rt", os.fsdecode(b"\xff.antt")]
# What is no source: an edit of it proves nothing anew.
OTHERS = ["crates/obsidian/data/p.obs", "crates/obsidian/stdin", "crates/obsidian/src/.main.rt.swp", "crates/low/out/made.rt", "README.md"]
# Names of folders in which the repository may stand.
FOLDERS = ["a b", "dé\u20acjà", "a'b\"c$d`e\\f", "ends\n", "-n", os.fsdecode(b"caf\xe9")]
# A command that builds a program which writes what it is, and the words that it is run with.
RT = """#!/usr/bin/env bash
here=$(dirname "$(realpath "$0")")
case $1 in
version) cat "$here/name" ;;
run)
    echo built >>"$here/builds"
    [ -f "$here/meanwhile" ] && . "$here/meanwhile"
    mkdir -p out
    printf '#!/usr/bin/env bash\\nprintf "%%s|" "$@"\\n# %s\\n' "$(cat src/main.rt)" >out/obsidian
    chmod +x out/obsidian
    ;;
try) printf '%s|' "$@" | tr '\\n' / ;;
esac
"""


class LauncherTest(unittest.TestCase):
    def setUp(self):
        folder = tempfile.mkdtemp()
        self.addCleanup(shutil.rmtree, folder)
        self.folder = folder
        self.tools = self.toolchain("tools", "one\n")
        self.make("repository")

    def make(self, name):
        """Makes a repository in a folder of that name, in which nothing is proved."""
        self.top = os.path.join(self.folder, name)
        os.makedirs(os.path.join(self.top, "tools"))
        for path in ("obsidian", "tools/compare_sessions.py"):
            shutil.copy(os.path.join(TOP, path), os.path.join(self.top, path))
        for path in ("crates.txt", "HANDLES", SOURCE, "crates/low/specs/Lib.antt", "crates/low/src/out/deep.rt", *OTHERS):
            self.write(path, path)
        for name in ODD:
            self.write(os.path.join("crates/low/specs", name), "1")

    def toolchain(self, name, version):
        """A folder with the stand-in for the toolchain, which calls itself so."""
        tools = os.path.join(self.folder, name)
        os.makedirs(tools)
        for path, text in (("rt", RT), ("name", version)):
            with open(os.path.join(tools, path), "w", encoding="utf-8") as file:
                file.write(text)
        os.chmod(os.path.join(tools, "rt"), 0o755)
        return tools

    def path(self, name):
        return os.path.join(self.top, name)

    def write(self, name, text):
        os.makedirs(os.path.dirname(self.path(name)), exist_ok=True)
        with open(self.path(name), "w", encoding="utf-8") as file:
            file.write(text)

    def call(self, *words, launcher=None, tools=None, **how):
        """Calls the launcher with these words. Nothing of the caller's environment but the path of the system's commands is passed on."""
        path = os.pathsep.join([*([self.tools] if tools is None else tools), "/usr/bin", "/bin"])
        environment = {"PATH": path, "LC_ALL": "C.UTF-8", **how.pop("environment", {})}
        launcher = launcher or self.path("obsidian")
        return subprocess.run([launcher, *words], env=environment, capture_output=True, check=False, stdin=subprocess.DEVNULL, **how)

    def builds(self):
        """How often the toolchain has built the program."""
        try:
            with open(os.path.join(self.tools, "builds"), encoding="utf-8") as file:
                return len(file.readlines())
        except FileNotFoundError:
            return 0

    def serves(self, builds, **how):
        """The program runs, and so many builds were made until then."""
        ran = self.call("serve", "p q", "é", **how)
        self.assertEqual((ran.returncode, ran.stdout.decode(), self.builds()), (0, "serve|p q|é|", builds), ran.stderr.decode())

    def test_what_is_built_is_taken_until_a_source_changes(self):
        self.serves(1)
        self.serves(1)
        self.write(SOURCE, "other")
        self.serves(2)
        self.serves(2)
        self.write(SOURCE, SOURCE)
        self.serves(3)

    def test_times_say_nothing(self):
        self.serves(1)
        later = time.time() + 3600
        os.utime(self.path(SOURCE), (later, later))
        self.serves(1)
        self.write(SOURCE, "other")
        os.utime(self.path(SOURCE), (0, 0))
        os.utime(self.path("crates/obsidian/out/obsidian"), (later, later))
        self.serves(2)

    def test_each_source_counts(self):
        self.serves(1)
        places = ["crates.txt", "HANDLES", "crates/low/specs/Lib.antt", "crates/low/src/out/deep.rt"]
        for count, place in enumerate([*places, *(os.path.join("crates/low/specs", name) for name in ODD)], 2):
            self.write(place, "2")
            self.serves(count)

    def test_what_is_no_source_does_not_count(self):
        self.serves(1)
        for place in OTHERS:
            self.write(place, "2")
        self.serves(1)

    def test_files_that_come_go_and_move(self):
        self.serves(1)
        self.write("crates/low/src/new.rt", "")
        self.serves(2)
        os.remove(self.path("crates/low/src/new.rt"))
        self.serves(3)
        os.remove(self.path("crates/low/specs/a\nb.rt"))
        self.serves(4)
        os.rename(self.path("crates/low/specs/a b.rt"), self.path("crates/low/specs/a c.rt"))
        self.serves(5)
        os.remove(self.path("HANDLES"))
        self.serves(6)
        self.serves(6)

    def test_what_cannot_be_read_is_not_taken(self):
        self.serves(1)
        for make in (lambda path: os.symlink("nowhere", path), os.mkfifo):
            make(self.path("crates/low/src/odd.rt"))
            ran = self.call("serve", "p")
            self.assertEqual((ran.returncode, ran.stdout, self.builds()), (70, b"", 1))
            os.remove(self.path("crates/low/src/odd.rt"))
        self.serves(1)

    def test_a_folder_behind_a_link_is_read(self):
        os.rename(self.path("crates/low"), os.path.join(self.folder, "low"))
        os.symlink(os.path.join(self.folder, "low"), self.path("crates/low"))
        self.serves(1)
        self.write("crates/low/specs/Lib.antt", "2")
        self.serves(2)

    def test_another_toolchain(self):
        self.serves(1)
        other = self.toolchain("others", "two\n")
        self.assertEqual(self.call("serve", tools=[other]).returncode, 0)
        self.assertTrue(os.path.exists(os.path.join(other, "builds")))
        self.serves(2)
        # The same toolchain in another place is the same one.
        same = self.toolchain("same", "one\n")
        self.assertEqual(self.call("serve", tools=[same]).returncode, 0)
        self.assertFalse(os.path.exists(os.path.join(same, "builds")))

    def test_a_kit(self):
        """Of a kit the texts count by which it is known, and its command. No call of it is needed."""
        self.tools = self.toolchain("kit/bin", "")
        names = ["KIT-ID", "WHAT", "bin/rtlib.py"]
        for name in names:
            self.write(os.path.join(self.folder, "kit", name), "1")
        os.makedirs(os.path.join(self.folder, "bin"))
        os.symlink(os.path.join(self.tools, "rt"), os.path.join(self.folder, "bin", "rt"))
        tools = [os.path.join(self.folder, "bin")]
        self.serves(1, tools=tools)
        self.serves(1)
        for count, name in enumerate(names, 2):
            self.write(os.path.join(self.folder, "kit", name), "2")
            self.serves(count)

    def test_without_a_toolchain(self):
        ran = self.call("serve", "p", tools=[])
        self.assertEqual((ran.returncode, ran.stdout), (70, b""))
        self.serves(1)
        self.serves(1, tools=[])
        self.write(SOURCE, "other")
        self.assertEqual(self.call("serve", "p", tools=[]).returncode, 70)

    def test_a_program_that_was_replaced(self):
        self.serves(1)
        with open(self.path("crates/obsidian/out/obsidian"), "a", encoding="utf-8") as file:
            file.write("# another\n")
        self.serves(2)
        os.remove(self.path("crates/obsidian/out/obsidian"))
        self.serves(3)
        os.remove(self.path("crates/obsidian/out/obsidian.made-from"))
        self.serves(4)

    def test_a_repository_that_was_copied(self):
        self.serves(1)
        shutil.copytree(self.top, os.path.join(self.folder, "copy"))
        self.top = os.path.join(self.folder, "copy")
        self.serves(1)

    def test_an_edit_during_the_build(self):
        with open(os.path.join(self.tools, "meanwhile"), "w", encoding="utf-8") as file:
            file.write('echo edited >src/main.rt; rm "$here/meanwhile"')
        ran = self.call("serve", "p")
        self.assertEqual((ran.returncode, ran.stdout, self.builds()), (70, b"", 1))
        self.assertIn(b"changed while they were proved", ran.stderr)
        self.serves(2)
        self.serves(2)

    def test_a_build_that_fails(self):
        with open(os.path.join(self.tools, "meanwhile"), "w", encoding="utf-8") as file:
            file.write("echo refused >&2; exit 1")
        ran = self.call("serve", "p")
        self.assertEqual((ran.returncode, ran.stdout, self.builds()), (70, b"", 1))
        self.assertIn(b"refused\nobsidian: the program could not be built\n", ran.stderr)
        os.remove(os.path.join(self.tools, "meanwhile"))
        self.serves(2)

    def test_what_the_gate_notes(self):
        """The gate takes the sums, proves, and notes them: then the program is taken, unless something was edited meanwhile."""
        self.serves(1)
        sums = self.call("--made-from").stdout
        note = self.path("crates/obsidian/out/obsidian.made-from")
        os.remove(note)
        self.assertEqual(self.call("--note-proved", sums.decode().rstrip("\n")).returncode, 0)
        self.serves(1)
        os.remove(note)
        self.write(SOURCE, "edited")
        self.assertEqual(self.call("--note-proved", sums.decode().rstrip("\n")).returncode, 1)
        self.assertFalse(os.path.exists(note))
        self.assertEqual(self.call("--note-proved", "").returncode, 1)
        self.serves(2)

    def test_help_builds_nothing(self):
        ran = self.call("--help")
        self.assertEqual((ran.returncode, self.builds()), (2, 0))

    def test_links_to_the_launcher(self):
        self.serves(1)
        os.makedirs(os.path.join(self.folder, "bin"))
        os.symlink("../repository/obsidian", os.path.join(self.folder, "bin", "obsidian"))
        os.symlink("bin/obsidian", os.path.join(self.folder, "second"))
        self.serves(1, launcher=os.path.join(self.folder, "bin", "obsidian"))
        self.serves(1, launcher=os.path.join(self.folder, "second"))
        self.serves(1, launcher="bin/obsidian", cwd=self.folder)

    def test_a_path_for_cd(self):
        """CDPATH leads to other folders of the same names."""
        other = os.path.join(self.folder, "other")
        os.makedirs(os.path.join(other, "repository", "crates", "obsidian"))
        self.serves(1, launcher="repository/obsidian", cwd=self.folder, environment={"CDPATH": other})
        self.serves(1, launcher="repository/obsidian", cwd=self.folder, environment={"CDPATH": other})

    def test_folders_of_every_name(self):
        for count, name in enumerate(FOLDERS, 1):
            self.make(name)
            for environment in ({"LC_ALL": "C"}, {"LC_ALL": "C.UTF-8", "PYTHONIOENCODING": "utf-8:strict"}):
                with self.subTest(name=name, environment=environment):
                    self.serves(count, environment=environment)
                    self.serves(count, cwd=self.top, launcher="./obsidian", environment=environment)
                    self.compares(environment)

    def compares(self, environment):
        """`test` finds the program, and tells the session's name as it is. What the stand-in writes is no reply."""
        self.write("s é.txt", "> {}\n")
        session = os.path.join(self.top, "s é.txt")
        for words in (["test"], ["--unproved", "test"]):
            ran = self.call(*words, SOURCE, session, cwd=self.top, environment=environment)
            told = os.fsencode(session) + b": 0 of 0 replies agree\neach transaction was answered by ok\n"
            self.assertEqual((ran.returncode, ran.stdout), (0, told), ran.stderr)

    def test_files_of_every_name_without_a_proof(self):
        for name in FOLDERS[:5]:
            path = os.path.join(self.folder, name)
            with open(path, "w", encoding="utf-8"):
                pass
            ran = self.call("--unproved", "--", "check", path)
            self.assertEqual(ran.stdout.decode(), f"try|--data|file_2={path}|--|--|check|file_2|".replace("\n", "/"), ran.stderr)


if __name__ == "__main__":
    unittest.main()
