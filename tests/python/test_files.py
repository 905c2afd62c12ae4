"""Tests of the Python module gvrs: files saved and corrected. What fails, and what an interruption leaves behind; the lock that it shares
with the command, where that is installed beside the library."""

import errno
import fcntl
import os
import signal
import stat
import struct
import subprocess
import sys
import tempfile
import threading
import time
import unittest
from pathlib import Path
from unittest import mock

import gvrs
import test_gvrs
from gvrs import Correction, Fill, Page, Refused
from test_gvrs import Tests, page

COMMAND = Path(gvrs._library._name).parent.parent / "bin/gvrs"
ONE = struct.pack("<4h", 1, 2, 3, 4)
log = test_gvrs.Replays.of


class InFolder(Tests):
    """A folder with the sample page as page.gvrs."""

    def setUp(self):
        folder = tempfile.TemporaryDirectory()
        self.addCleanup(folder.cleanup)
        self.folder = Path(folder.name).resolve()
        self.path = self.folder / "page.gvrs"
        self.path.write_bytes(page("page").file)
        self.path.chmod(0o640)

    def assertAsBefore(self, *others):
        """The file is the sample page, and nothing else is in the folder but what is named."""
        self.assertEqual(self.path.read_bytes(), page("page").file)
        self.assertEqual(sorted(os.listdir(self.folder)), sorted(["page.gvrs", *others]))

    def python(self, text, *arguments, **options):
        """Another Python, with this module."""
        environment = {**os.environ, "GVRS_LIBRARY": gvrs._library._name, "PYTHONPATH": str(Path(gvrs.__file__).parent)}
        return subprocess.Popen([sys.executable, "-c", text, *map(str, arguments)], env=environment, stdout=subprocess.PIPE,
                                stderr=subprocess.PIPE, text=True, **options)


class Saving(InFolder):
    """New files."""

    def test_saved(self):
        mask = os.umask(0o027)
        try:
            for name, saved in (("a", page("page")), ("b", page("page").file), ("c", bytearray(page("page").file)), ("d", memoryview(page("page").file))):
                path = self.folder / name
                self.assertIsNone(gvrs.save(path if name < "c" else str(path), saved))
                self.assertEqual(path.read_bytes(), page("page").file)
                self.assertEqual(stat.S_IMODE(path.stat().st_mode), 0o640)
                self.assertEqual(path.stat().st_nlink, 1)
            page("page").save(self.folder / "e")
        finally:
            os.umask(mask)
        self.assertAsBefore("a", "b", "c", "d", "e")

    def test_in_this_folder(self):
        before = os.getcwd()
        os.chdir(self.folder)
        try:
            page("four-types").save("four.gvrs")
            self.assertEqual(Page("four.gvrs").file, page("four-types").file)
        finally:
            os.chdir(before)

    def test_no_file_is_replaced(self):
        (self.folder / "link").symlink_to("nowhere")
        (self.folder / "folder").mkdir()
        for name in ("page.gvrs", "link", "folder"):
            self.assertSays(FileExistsError, "there is such a file already, and it stays as it is", gvrs.save, self.folder / name, page("wide"))
        self.assertAsBefore("link", "folder")

    def test_no_page(self):
        for number in range(1, 10):
            bad = page(f"refused-{number}")
            for saved in (bad, bad.file):
                with self.assertRaises(Refused) as caught:
                    gvrs.save(self.folder / "new", saved)
                self.assertEqual(caught.exception.number, number)
        for wrong in (None, 5, "page", [page("page")]):
            self.assertRaises(TypeError, gvrs.save, self.folder / "new", wrong)
        self.assertRaises(FileNotFoundError, gvrs.save, self.folder / "none/new", page("page"))
        self.assertAsBefore()

    def test_a_disk_that_is_full(self):
        full = OSError(errno.ENOSPC, os.strerror(errno.ENOSPC))
        for name in ("write", "fsync"):
            with mock.patch.object(os, name, side_effect=full):
                self.assertSays(OSError, "its copy cannot be written: No space left", gvrs.save, self.folder / "new", page("page"))
            self.assertAsBefore()


class Correcting(InFolder):
    """A file corrected: the page, and what stays as it is."""

    def test_corrected(self):
        with gvrs.correcting(self.path, time=9) as correction:
            self.assertIsInstance(correction, Correction)
            correction.store(0, {"z": [[1, 2], [3, 4]]})
            correction.store(3, struct.pack("<4h", 5, 6, 7, 8))
            self.assertEqual((correction.remove(2), correction.remove(1)), (True, False))
            self.assertAsBefore()
            self.assertEqual(correction.before["z"][2], [11, 12, Fill(7)])
        self.assertTrue(correction.changed)
        corrected = Page(self.path)
        self.assertEqual(corrected["z"][:], [[1, 2, Fill(7)], [3, 4, Fill(7)], [Fill(7), Fill(7), 5]])
        self.assertEqual(corrected.shape.time, 9)
        self.assertEqual(stat.S_IMODE(self.path.stat().st_mode), 0o640)
        self.assertEqual(os.listdir(self.folder), ["page.gvrs"])
        self.assertRefused(15, 0, lambda: correction.store(0, ONE))
        self.assertRefused(15, 0, correction.squeeze)

    def test_as_replayed(self):
        """Stores and removals one by one, and the same as a log, make the same bytes."""
        steps = ((0, ONE), (2, None), (3, ONE), (0, None), (1, ONE))
        with gvrs.correcting(self.path, time=9) as correction:
            for index, cells in steps:
                correction.remove(index) if cells is None else correction.store(index, cells)
        self.assertEqual(self.path.read_bytes(), page("page").replay(log(*steps), 9))
        self.path.write_bytes(page("page").file)
        with gvrs.correcting(self.path, time=9) as correction:
            self.assertEqual(correction.replay(log(*steps)), 5)
        self.assertEqual(self.path.read_bytes(), page("page").replay(log(*steps), 9))

    def test_squeezed(self):
        for how in ("at the end", "in the block", "by itself"):
            self.path.write_bytes(page("page").replay(test_gvrs.Squeezes.LOG, 9))
            with gvrs.correcting(self.path, time=10, squeeze=how == "at the end") as correction:
                if how != "by itself":
                    correction.store(3, ONE)
                if how != "at the end":
                    self.assertEqual(correction.squeeze(), 424)
            self.assertEqual(len(self.path.read_bytes()), 424)
            self.assertEqual(Page(self.path).shape.time, 10)
        with gvrs.correcting(self.path, time=11, squeeze=True) as correction:
            pass
        self.assertEqual((Page(self.path).shape.time, correction.changed), (11, True))

    def test_time(self):
        before = time.time_ns() // 1_000_000
        with gvrs.correcting(self.path) as correction:
            correction.store(0, ONE)
        self.assertTrue(before <= Page(self.path).shape.time <= time.time_ns() // 1_000_000)

    def test_nothing_changed(self):
        was = os.stat(self.path)
        for logs in ((), (log(),)):
            with gvrs.correcting(self.path, time=9) as correction:
                self.assertFalse(correction.remove(0))
                for entries in logs:
                    self.assertEqual(correction.replay(entries), 0)
            self.assertFalse(correction.changed)
            self.assertAsBefore()
            self.assertEqual((os.stat(self.path).st_ino, os.stat(self.path).st_mtime_ns), (was.st_ino, was.st_mtime_ns))

    def test_a_block_that_raises(self):
        for wrong in (ZeroDivisionError, KeyboardInterrupt, SystemExit):
            with self.assertRaises(wrong), gvrs.correcting(self.path) as correction:
                correction.store(0, ONE)
                raise wrong
            self.assertAsBefore()
        for ask in (lambda correction: correction.store(4, ONE), lambda correction: correction.remove(4),
                    lambda correction: correction.store(0, ONE[:-1]), lambda correction: correction.replay(b"")):
            with self.assertRaises(Refused), gvrs.correcting(self.path) as correction:
                correction.store(0, ONE)
                ask(correction)
            self.assertAsBefore()

    def test_a_refusal_that_is_caught(self):
        with gvrs.correcting(self.path, time=9) as correction:
            correction.store(0, ONE)
            self.assertRefused(10, 0, lambda: correction.store(4, ONE), "there are tiles 0 to 3")
            self.assertRefused(10, 0, lambda: correction.store(4, {"z": [1, 2, 3, 4]}), "there are tiles 0 to 3")
            self.assertRefused(10, 0, lambda: correction.remove(2**64 - 1), "there are tiles 0 to 3")
            self.assertRefused(12, 0, lambda: correction.store(0, bytes(9)), "tile 0: 9 bytes, and its cells take 8")
            self.assertRefused(12, 0, lambda: correction.replay(b"log"), "the log is no correction log of this page")
            self.assertRaises(TypeError, correction.store, 0, [1, 2, 3, 4])
            self.assertRaises(TypeError, correction.store, 0, {"y": [1, 2, 3, 4]})
            self.assertRaises(ValueError, correction.store, -1, ONE)
            self.assertSays(ValueError, "row 0, column 1 of tile 0, element 'z', is masked", correction.store, 0, {"z": [1, None, 3, 4]})
            self.assertSays(ValueError, "remove(1) is what makes its cells fills", correction.store, 1, {"z": [None] * 4})
        self.assertEqual(self.path.read_bytes(), page("page").replay(log((0, ONE)), 9))

    def test_masked_cells(self):
        with gvrs.correcting(self.path) as correction:
            correction.store(0, {"z": [[1, None], [3, 4]]}, unread=-1)
        self.assertEqual(Page(self.path).tile(0, "z"), [[1, -1], [3, 4]])

    def test_room(self):
        self.path.write_bytes(page("large-tiles").file)
        size = page("large-tiles").shape.tile_bytes
        entries = [(index, bytes([index]) * size) for index in range(20)]
        with self.assertRaises(gvrs.Stopped) as caught, gvrs.correcting(self.path) as correction:
            correction.replay(log(*entries))
        self.assertEqual((caught.exception.entries, caught.exception.file, self.path.read_bytes()), (15, None, page("large-tiles").file))
        with gvrs.correcting(self.path) as correction:
            self.assertRaises(gvrs.Stopped, correction.replay, log(*entries))  # those done are written, since it is caught
            self.assertRefused(13, 0, lambda: correction.store(*entries[15]), "the page cannot grow: it would have more than 16777216 bytes")
        self.assertEqual(Page(self.path).shape.stored_tiles, 15)

    def test_pages_that_are_refused(self):
        for number in range(1, 10):
            bad = page(f"refused-{number}").file
            self.path.write_bytes(bad)
            with self.assertRaises(Refused) as caught, gvrs.correcting(self.path):
                self.fail("the block was entered")
            self.assertEqual((caught.exception.number, caught.exception.path), (number, str(self.path)))
            self.assertEqual((self.path.read_bytes(), os.listdir(self.folder)), (bad, ["page.gvrs"]))
        self.path.write_bytes(page("page").file)
        with self.assertRaises(Refused) as caught, gvrs.correcting(self.path, time=0):
            self.fail("the block was entered")
        self.assertIn("the time is 0", str(caught.exception))
        self.assertAsBefore()

    def assertFails(self, kind, text, path=None, **options):
        with self.assertRaises(kind) as caught, gvrs.correcting(path or self.path, **options):
            self.fail("the block was entered")
        self.assertIn(text, str(caught.exception))

    def test_files_that_stay(self):
        link, other = self.folder / "link", self.folder / "other"
        other.hardlink_to(self.path) if hasattr(other, "hardlink_to") else os.link(self.path, other)
        self.assertFails(OSError, "it has another name, a hard link, which would keep the old page")
        self.assertFails(OSError, "a hard link", other)
        other.unlink()
        self.path.chmod(0o440)
        self.assertFails(PermissionError, "no one may write to it")
        self.path.chmod(0o640)
        self.assertFails(OSError, "not a file that can be replaced", self.folder)
        self.assertFails(FileNotFoundError, "missing", self.folder / "missing")
        self.assertAsBefore()
        link.symlink_to("page.gvrs")
        with gvrs.correcting(link, time=9) as correction:
            correction.store(0, ONE)
        self.assertTrue(link.is_symlink())
        self.assertEqual(self.path.read_bytes(), page("page").replay(log((0, ONE)), 9))

    def test_a_file_that_is_changed_meanwhile(self):
        def written():
            with open(self.path, "r+b") as stream:
                stream.write(b"\0")

        def replaced():
            (self.folder / "other").write_bytes(page("wide").file)
            os.rename(self.folder / "other", self.path)

        for change in (written, replaced, self.path.unlink):
            self.path.write_bytes(page("page").file)
            with self.assertRaises(OSError) as caught, gvrs.correcting(self.path) as correction:
                correction.store(0, ONE)
                change()
                is_ = self.path.read_bytes() if self.path.exists() else None
            self.assertIn("it was changed meanwhile, and is left as it is", str(caught.exception))
            self.assertEqual(self.path.read_bytes() if self.path.exists() else None, is_)
            self.assertLessEqual(set(os.listdir(self.folder)), {"page.gvrs"})

    def test_what_fails_leaves_nothing_behind(self):
        full = OSError(errno.ENOSPC, os.strerror(errno.ENOSPC))
        for name, text in (("write", "its copy cannot be written: No space left"), ("fsync", "its copy cannot be written"),
                           ("fchmod", "its copy cannot have its owner and group"), ("rename", "No space left"),
                           ("open", "")):
            with self.assertRaises(OSError) as caught, gvrs.correcting(self.path) as correction:
                correction.store(0, ONE)
                patch = mock.patch.object(os, name, side_effect=full)
                patch.start()
                self.addCleanup(patch.stop)
            patch.stop()
            self.assertIn(text, str(caught.exception))
            self.assertAsBefore()

    def test_signals_wait(self):
        """An interruption while the copy is written comes behind it: the page is whole, and no copy is left."""
        # Whoever starts the tests in the background may have this signal ignored.
        self.addCleanup(signal.signal, signal.SIGINT, signal.signal(signal.SIGINT, signal.default_int_handler))
        rename = os.rename

        def interrupted(*names):
            os.kill(os.getpid(), signal.SIGINT)
            rename(*names)

        with self.assertRaises(KeyboardInterrupt), mock.patch.object(os, "rename", interrupted), gvrs.correcting(self.path, time=9) as correction:
            correction.store(0, ONE)
        self.assertEqual(self.path.read_bytes(), page("page").replay(log((0, ONE)), 9))
        self.assertEqual(os.listdir(self.folder), ["page.gvrs"])

    def test_a_process_that_is_killed(self):
        """Where it is killed the file is the old page or the new one; of a copy at most what the command leaves too, which is in no one's way."""
        text = """
import gvrs, os, signal, sys
def killed(*arguments):
    os.kill(os.getpid(), signal.SIGKILL)
setattr(os, sys.argv[2], killed)
with gvrs.correcting(sys.argv[1], time=9) as correction:
    correction.store(0, bytes([1, 0, 2, 0, 3, 0, 4, 0]))
"""
        for name in ("write", "fsync", "rename"):
            process = self.python(text, self.path, name)
            process.communicate()
            self.assertEqual(process.returncode, -signal.SIGKILL)
            left = [other for other in os.listdir(self.folder) if other != "page.gvrs"]
            self.assertTrue(len(left) == 1 and left[0].startswith(".gvrs-"))
            self.assertAsBefore(*left)
            (self.folder / left[0]).unlink()
        with gvrs.correcting(self.path, time=9) as correction:
            correction.store(0, ONE)
        self.assertEqual(os.listdir(self.folder), ["page.gvrs"])

    def test_descriptors_are_closed(self):
        count = len(os.listdir("/proc/self/fd"))
        for _ in range(3):
            with gvrs.correcting(self.path) as correction:
                correction.store(0, ONE)
            with self.assertRaises(ZeroDivisionError), gvrs.correcting(self.path):
                1 / 0
            self.assertFails(Refused, "the time is 0", time=0)
        self.assertEqual(len(os.listdir("/proc/self/fd")), count)


class Locks(InFolder):
    """Corrections of one file keep each other away."""

    def locked(self):
        stream = os.open(self.path, os.O_RDWR)
        self.addCleanup(os.close, stream)
        fcntl.flock(stream, fcntl.LOCK_EX)

    def assertTaken(self, text, **options):
        with self.assertRaises(BlockingIOError) as caught, gvrs.correcting(self.path, **options):
            self.fail("the block was entered")
        self.assertIn(text, str(caught.exception))

    def test_taken(self):
        self.locked()
        self.assertTaken("another correction of it is under way; wait=SECONDS waits for it")
        begin = time.monotonic()
        self.assertTaken("another correction of it is still under way after 0.2 s", wait=0.2)
        self.assertGreaterEqual(time.monotonic() - begin, 0.2)
        self.assertAsBefore()

    def test_a_correction_in_a_correction(self):
        with gvrs.correcting(self.path, time=9) as correction:
            correction.store(0, ONE)
            self.assertTaken("another correction of it is under way")
        self.assertEqual(self.path.read_bytes(), page("page").replay(log((0, ONE)), 9))

    def test_a_lock_that_fails(self):
        for reason in (errno.ENOLCK, errno.ENOSYS, errno.EBADF):
            with mock.patch.object(fcntl, "flock", side_effect=OSError(reason, os.strerror(reason))):
                with self.assertRaises(OSError) as caught, gvrs.correcting(self.path):
                    self.fail("the block was entered")
            self.assertIn(f"it cannot be locked: {os.strerror(reason)}", str(caught.exception))
            self.assertAsBefore()

    def test_a_file_replaced_before_the_lock_is_had(self):
        """The lock of a file that has lost its name is not one of the page."""
        flock, waited = fcntl.flock, []

        def late(stream, how):
            if not waited:
                waited.append(True)
                (self.folder / "other").write_bytes(page("four-types").file)
                os.rename(self.folder / "other", self.path)
            flock(stream, how)

        with mock.patch.object(fcntl, "flock", late):
            self.assertTaken("another correction of it is under way")
            waited.clear()
            with gvrs.correcting(self.path, wait=5) as correction:
                self.assertEqual(correction.before.shape.elements, 4)

    def test_writers_at_once(self):
        front = gvrs.front(8, 8, 1, 1, [("z", "Short", 7)])
        self.path.unlink()
        gvrs.save(self.path, gvrs.lay_down(front, {}, 1))
        failed = []

        def write(first):
            try:
                for index in range(first, 64, 4):
                    with gvrs.correcting(self.path, wait=60) as correction:
                        correction.store(index, struct.pack("<h", index))
            except BaseException as error:
                failed.append(error)

        threads = [threading.Thread(target=write, args=(first,)) for first in range(4)]
        for thread in threads:
            thread.start()
        for thread in threads:
            thread.join()
        self.assertEqual(failed, [])
        self.assertEqual(sum(Page(self.path)["z"][:], []), list(range(64)))
        self.assertEqual(os.listdir(self.folder), ["page.gvrs"])

    @unittest.skipUnless(COMMAND.exists(), "the command is not installed beside the library")
    def test_with_the_command(self):
        (self.folder / "cells").write_bytes(ONE)

        def store(index, *options):
            return subprocess.run([COMMAND, "store", self.path, str(index), self.folder / "cells", *options], capture_output=True, text=True)

        with gvrs.correcting(self.path, time=9) as correction:
            correction.store(0, ONE)
            done = store(3)
            self.assertEqual((done.returncode, "another correction of it is under way" in done.stderr), (2, True))
            waiting = threading.Thread(target=store, args=(1, "--wait", "60"))
            waiting.start()
            time.sleep(0.1)
        waiting.join()
        self.assertEqual([tile.index for tile in Page(self.path).tiles()], [0, 1, 2])
        os.unlink(self.folder / "cells")
        self.assertEqual(os.listdir(self.folder), ["page.gvrs"])

    @unittest.skipUnless(COMMAND.exists(), "the command is not installed beside the library")
    def test_as_the_command(self):
        """The same bytes, owner and mode as the command leaves."""
        (self.folder / "cells").write_bytes(ONE)
        other = self.folder / "other"
        other.write_bytes(self.path.read_bytes())
        other.chmod(0o640)
        for words, how in ((["store", other, "0", self.folder / "cells"], lambda correction: correction.store(0, ONE)),
                           (["remove", other, "2"], lambda correction: correction.remove(2)),
                           (["squeeze", other], lambda correction: correction.squeeze())):
            subprocess.run([COMMAND, *words, "--time", "9"], check=True, capture_output=True)
            with gvrs.correcting(self.path, time=9) as correction:
                how(correction)
            self.assertEqual(self.path.read_bytes(), other.read_bytes())
            one, two = self.path.stat(), other.stat()
            self.assertEqual((one.st_mode, one.st_uid, one.st_gid), (two.st_mode, two.st_uid, two.st_gid))


if __name__ == "__main__":
    unittest.main()
