"""Streams that are closed, full, gone or don't block, a file that grows too large, answers that come before the next
read, and a terminal."""
import os
import pty
import resource
import signal
import socket
import subprocess
import tempfile
import unittest

from process import PROGRAM, first_line, ran


class Streams(unittest.TestCase):
    def failed_output(self, done):
        status, _, error = done
        self.assertEqual((status, first_line(error)), (2, b"s2calc: output"))

    def failed_input(self, done):
        status, out, error = done
        self.assertEqual((status, out, first_line(error)), (2, b"", b"s2calc: input"))

    def test_standard_output_is_closed(self):
        self.failed_output(ran("run", script=b"add a 1\n", stdout=None, preexec_fn=lambda: os.close(1)))

    def test_standard_output_is_full(self):
        with open("/dev/full", "wb") as full:
            self.failed_output(ran("run", script=b"add a 1\n", stdout=full))
            self.failed_output(ran("cell", "1", stdout=full))
            self.failed_output(ran("cell", "X", stdout=full))
            self.failed_output(ran("check", "absent", stdout=full))
            self.failed_output(ran("draw", "absent", stdout=full))
            self.failed_output(ran("draw", "absent", "absent", stdout=full))
            self.failed_output(ran("draw", "--cells", "1", stdout=full))
            self.failed_output(ran("--help", stdout=full))

    def test_no_file_is_written_if_the_answers_before_it_are_lost(self):
        with tempfile.TemporaryDirectory() as folder, open("/dev/full", "wb") as full:
            words = ["run", "--dir", folder]
            self.failed_output(ran(*words, script=b"add a 1\nsave a f\n", stdout=full))
            self.assertEqual(os.listdir(folder), [])
            # Here none is lost but its own, and then the next file is not written.
            self.failed_output(ran(*words, script=b"save a f\nsave a g\n", stdout=full))
            self.assertEqual(os.listdir(folder), ["f"])

    def test_the_reader_of_the_answers_goes_away(self):
        reader, writer = os.pipe()
        os.close(reader)
        with os.fdopen(writer, "wb") as gone:
            self.failed_output(ran("run", script=b"add a 1\n", stdout=gone))

    def test_standard_input_is_closed(self):
        self.failed_input(ran("run", input=None, stdin=None, preexec_fn=lambda: os.close(0)))

    def test_standard_input_is_a_folder(self):
        folder = os.open("/", os.O_RDONLY)
        self.addCleanup(os.close, folder)
        self.failed_input(ran("run", input=None, stdin=folder))

    def test_a_read_that_fails_at_the_prompt_is_told_on_a_line_of_its_own(self):
        folder = os.open("/", os.O_RDONLY)
        self.addCleanup(os.close, folder)
        done = ran("run", "--prompt", input=None, stdin=folder)
        self.assertEqual(done, (2, b"", b"s2calc> \ns2calc: input\n"))

    def test_a_stream_that_would_have_to_wait_has_failed(self):
        reader, writer = os.pipe()
        os.set_blocking(reader, False)
        with os.fdopen(reader, "rb") as empty, os.fdopen(writer, "wb"):
            self.failed_input(ran("run", input=None, stdin=empty))
        reader, writer = os.pipe()
        os.set_blocking(writer, False)
        with os.fdopen(reader, "rb"), os.fdopen(writer, "wb") as full:
            self.failed_output(ran("run", script=b"count a\n" * 20000, stdout=full))

    def test_a_file_that_grows_too_large_ends_the_process_after_the_answers_before_it(self):
        def small_files():
            resource.setrlimit(resource.RLIMIT_FSIZE, (9, 9))
            resource.setrlimit(resource.RLIMIT_CORE, (0, 0))

        with tempfile.TemporaryDirectory() as folder:
            script = b"save a f\nadd a 1\nsave a f\nadd a 2\n"
            status, out, error = ran("run", "--dir", folder, script=script, preexec_fn=small_files)
            self.assertEqual((status, out, error), (-signal.SIGXFSZ, b"ok\nok 0 1\n", b""))
            with open(os.path.join(folder, "f"), "rb") as file:
                self.assertEqual(file.read(), bytes([1, 1] + 7 * [0]))

    def test_answers_of_whole_lines_are_out_after_a_read_that_failed(self):
        note = b"line 1: error cell: 'X' is not a cell (a token or a debug text)\n"
        for words, notes in ((["run"], b""), (["run", "--explain"], note)):
            ours, its = socket.socketpair()
            with its:
                ours.sendall(b"cell X\ncell X")
                its.sendall(b"not read")
                ours.close()  # With bytes unread there, which resets the connection once its own bytes are read here.
                status, out, error = ran(*words, input=None, stdin=its)
            self.assertEqual((status, out, error), (2, b"error cell\n", notes + b"s2calc: input\n"))

    def test_answers_of_whole_lines_come_before_the_next_read(self):
        ours, its = socket.socketpair()
        with ours, its:
            ours.sendall(b"cell X\ncell X")
            program = subprocess.Popen([PROGRAM, "run"], stdin=its, stdout=subprocess.PIPE, stderr=subprocess.PIPE)
            self.assertEqual(program.stdout.readline(), b"error cell\n")
            program.kill()
            program.communicate()

    def test_a_script_that_fits_is_one_read_and_its_answers_are_one_write(self):
        # Such a socket gives a message to one read, and makes one of each write.
        ours, its = socket.socketpair(socket.AF_UNIX, socket.SOCK_SEQPACKET)
        with ours, its:
            ours.send(b"clear a\n" * 8000)
            ours.shutdown(socket.SHUT_WR)
            status, _, error = ran("run", input=None, stdin=its, stdout=its)
            its.close()
            self.assertEqual((status, error), (0, b""))
            self.assertEqual(list(iter(lambda: ours.recv(1 << 17), b"")), [b"ok 0 0\n" * 8000])


class Terminal(unittest.TestCase):
    def test_each_answer_comes_before_the_next_line_is_typed(self):
        child, terminal = pty.fork()
        if child == 0:
            os.execv(PROGRAM, [PROGRAM, "run"])
        shown = b""
        for line, answer in [(b"add a 1\n", b"ok 0 1"), (b"count a\n", b"cells 1 leaves"), (b"x\n", b"error syntax")]:
            os.write(terminal, line)
            while answer not in shown:
                shown += os.read(terminal, 4096)
        os.write(terminal, b"\x04")
        self.assertEqual(os.waitstatus_to_exitcode(os.waitpid(child, 0)[1]), 1)
        os.close(terminal)
