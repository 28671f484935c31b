"""`strict`: replies as they come, and the numbers that it ends with."""

import os
import subprocess
import sys

from playing import TOOLS, Playing

SCRIPT = "format 0 Card 9\n \t\r\n\t% a remark\nmount 0\nadd 0 Notes {\n  soup 0 Notes\r\nadd 1 Notes {}\n"


class Strict(Playing):
    def test_errors_are_told_with_line_and_command(self) -> None:
        self.blank("card")
        ended = self.tool("strict", "card", given=SCRIPT)
        self.assertEqual(ended.status, 1)
        self.assertEqual(ended.output, "ok\nok 9 Card\nerror 3 literal\nok 0\nerror 20 unit\n")
        told = "strict: line 5: add 0 Notes {: error 3 literal\nstrict: line 7: add 1 Notes {}: error 20 unit\n"
        self.assertEqual(ended.told, told)

    def test_a_script_without_errors_ends_with_0(self) -> None:
        ended = self.tool("strict", given="nsof 020A\nquit\nnonsense\n")
        self.assertEqual(ended, (0, "ok 020A\nok\n", ""))

    def test_it_stops_at_the_first_error_where_it_is_told_to(self) -> None:
        self.blank("card")
        ended = self.tool("strict", "--stop", "card", given=SCRIPT)
        self.assertEqual((ended.status, ended.output), (1, "ok\nok 9 Card\nerror 3 literal\n"))

    def test_it_ends_with_the_number_of_newton(self) -> None:
        self.assertEqual(self.tool("strict", "a", "a").status, 2)
        self.assertEqual(self.tool("strict", given="%" * 16_777_216 + "\nnsof 020A\n").status, 7)

    def test_each_reply_is_out_before_the_next_line_is_read(self) -> None:
        pipe = subprocess.PIPE
        command = [sys.executable, str(TOOLS / "strict")]
        with subprocess.Popen(command, stdin=pipe, stdout=pipe, stderr=pipe, env=os.environ) as running:
            for line, reply in ((b"nsof 020A\n", b"ok 020A\n"), (b"lit x\n", b"error 3 literal\n")):
                running.stdin.write(line)
                running.stdin.flush()
                self.assertEqual(running.stdout.readline(), reply)
            running.communicate()
            self.assertEqual(running.returncode, 1)

    def test_a_card_that_fails_costs_its_own_command_alone(self) -> None:
        self.card("card", "soup 0 S")
        script = f"trap '' XFSZ; ulimit -f 16; {sys.executable} {TOOLS / 'strict'} card"
        given = 'mount 0\nadd 0 S {a: "' + "x" * 5000 + '"}\nadd 0 S {}\nmount 0\n'
        ended = self.ran(["bash", "-c", script], given)
        self.assertEqual(ended.status, 1)
        replies = ["ok 9 Card", "error 50 device 0", "error 25 notmounted", "ok 9 Card"]
        self.assertEqual(ended.output.splitlines(), replies)

    def test_without_a_program_it_says_so(self) -> None:
        before = os.environ["NEWTON"]
        self.addCleanup(os.environ.__setitem__, "NEWTON", before)
        os.environ["NEWTON"] = str(self.folder / "none")
        ended = self.tool("strict", given="stores\n")
        self.assertEqual((ended.status, ended.output), (1, ""))
        self.assertIn("newton can't be started", ended.told)
