"""`simulate`: scripts of events, run whole, with their exact output."""

import time

from events import long_script
from program import INPUT_LIMIT, Runs, rows_of, run, swept
from store import Store, read_entry

# A command that ASK sends on while its slot moves, behind another worker's batch on the same link.
MOVE_SCRIPT = "another_workers_batch_between_ask_and_its_pair"

# What ends each command of the move script that can end, where its own events for that were taken out.
ENDS = [b"take 0", b"take 1", b"take 0", b"take 1", b"answer 0", b"answer 1"]

# What stands before each of the worked scripts.
HEADER = b"nodes 3\nworkers 2\nowner 0 5460 0\nowner 5461 10922 1\nowner 10923 16383 2\n"


def is_answer(event):
    return event.startswith(b"answer ")


class Simulate(Runs):
    def test_worked_scripts(self):
        for row in rows_of("simulate_scripts.txt"):
            with self.subTest(row.name):
                self.check(["simulate"], HEADER + row.given, row.status, row.wanted)

    def test_inputs(self):
        """Inputs that are bad, and some that are not quite."""
        for row in rows_of("simulate_inputs.txt"):
            with self.subTest(row.name):
                self.check(["simulate"], row.given, row.status, row.wanted)

    def test_one_byte_too_many(self):
        self.check(["simulate"], b"x" * INPUT_LIMIT, 1, b"bad line 1\n")
        self.check(["simulate"], b"x" * (INPUT_LIMIT + 1), 1, b"too long\n")

    def test_a_read_that_fails(self):
        self.check_failed_read(["simulate"], b"read failed\n")

    def test_a_write_that_fails(self):
        self.check_failed_write(["simulate"], HEADER + rows_of("simulate_scripts.txt")[0].given)

    def test_a_drop_before_each_event_of_a_move(self):
        """Each link of the move script drops before each event behind its opening; events that are refused then are taken out, and
        what has ended is answered at the end. Each history is that of one store, and has each command at most once, and once with
        its reply where it ended with one."""
        script = next(row.given for row in rows_of("simulate_scripts.txt") if row.name == MOVE_SCRIPT).splitlines()
        self.assertEqual(len(script), 25)
        began, runs, taken_out, answered, late = time.monotonic(), 0, 0, 0, 0
        for link, first in [(0, 6), (1, 13)]:
            self.assertEqual(script[first - 2].split()[0::2], [b"carry", b"%d" % link])
            for event in range(first, len(script) + 1):
                with self.subTest(link=link, event=event):
                    events = script[: event - 1] + [b"drop %d" % link] + script[event - 1 :]
                    lines, kept, ends = self.run_of_allowed(events)
                    self.assertIn(b"drop %d" % link, kept)
                    answered += self.check_history(lines)
                    runs, taken_out, late = runs + 1, taken_out + len(events) - len(kept), late + sum(map(is_answer, ends))
        ended = f"{answered} of {2 * runs} commands ended, {late} of them answered at the end"
        swept(f"drops before each event of a move: {runs} runs, {taken_out} events taken out; {ended}", began)
        self.assertEqual(runs, 33)

    def run_of_allowed(self, events):
        """What is written where each event that is refused is taken out, the events that are left, and those of the ends behind them."""
        events = [*events, *ENDS]
        ends = len(ENDS)
        while True:
            status, written, _ = run(["simulate"], HEADER + b"".join(event + b"\n" for event in events))
            lines = written.decode().splitlines()
            if status == 0:
                return lines, events[: len(events) - ends], events[len(events) - ends :]
            word, number, why = lines[-1].split()
            self.assertEqual((status, word, why), (1, "refused", "NotNow"))
            ends -= int(number) > len(events) - ends
            del events[int(number) - 1]

    def check_history(self, lines):
        """How many commands were answered, each as the history has it."""
        entries, store, answered = {}, Store(), []
        for line in lines:
            if line.startswith("entry "):
                words, reply = read_entry(line)
                ticket = line.split()[1]
                self.assertNotIn(ticket, entries)
                self.assertEqual(reply, store.apply(words), line)
                entries[ticket] = reply
        for line in lines:
            if line.startswith("answer "):
                _, ticket, end = line.split(" ", 2)
                self.assertIn(ticket, ["0.0", "1.0"])
                self.assertNotIn(ticket, answered)
                answered.append(ticket)
                if end != "lost":
                    self.assertEqual(entries.get(ticket), end, line)
        return len(answered)

    def test_the_longest_run(self):
        """64 commands go as one run, each in its turn; 65 do not."""
        for commands, posted in [(64, True), (65, False)]:
            with self.subTest(commands=commands):
                run_of = "+".join(str(part) for part in range(commands))
                events = ["arrive 0 INCR a"] * commands + [f"post 0.{run_of} 2"]
                if posted:
                    events += ["carry 0 0", "serve 0"] + ["fetch 0"] * commands + ["take 0"] * commands + ["answer 0"] * commands
                    lines = [f"answer 0.{part} integer {part + 1}" for part in range(commands)]
                    lines += [f"entry 0.{part} INCR a = integer {part + 1}" for part in range(commands)]
                else:
                    lines = [f"refused {commands + 1} NotNow"]
                given = HEADER + "".join(f"{event}\n" for event in events).encode()
                self.check(["simulate"], given, 0 if posted else 1, "".join(f"{line}\n" for line in lines).encode())

    def test_a_long_history_is_that_of_one_store(self):
        """20,000 events: commands, groups, dropped links, moves and recalls of slots."""
        status, written, _ = run(["simulate"], HEADER + long_script(20_000).encode())
        self.assertEqual(status, 0)
        lines = written.decode().splitlines()
        entries = [read_entry(line) for line in lines if line.startswith("entry ")]
        self.assertGreater(len(entries), 1_000)
        store = Store()
        for words, reply in entries:
            self.assertEqual(reply, store.apply(words), words)
