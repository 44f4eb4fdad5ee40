"""Command lines that say what can't be are refused: the program ends at once, and nothing listens."""
from tests.lib.case import ProgramCase
from tests.lib.listening import ENDS, ended
from tests.lib.process import outcome, started

# Of each option what it doesn't take.
WRONG = [["-p", "0"], ["-p", "65536"], ["-p", "x"], ["-p", "-1"], ["-p"], ["-t", "0"], ["-t", "65"], ["-t", "x"], ["-t", ""]]
WRONG += [["-c", "0"], ["-c", "65537"], ["-c", "x"], ["-c"], ["-U", "1"], ["-U"], ["-l"], ["-l", ""], ["-l", "x"], ["-l", "127.0.0"]]
WRONG += [["-l", "127.0.0.1:0"], ["-l", "127.0.0.1:x"], ["-l", "127.0.0.1,x"], ["-l", "127.0.0.1", "-l", "x"]]
WRONG += [["-l", "01.0.0.1"], ["-l", ":::"]]
WRONG += [["-o", "x"], ["-o", ""], ["-o", "modern,idle_timeout=3"], ["-o"], ["-B", "binary"], ["-B", ""], ["-R", "0"], ["-b", "x"], ["-n", "-1"]]
WRONG += [["--buffer-limit", "0"], ["--buffer-limit", "65537"], ["--buffer-limit", "x"], ["--buffer-limit"]]
WRONG += [["--idle-timeout", "-1"], ["--idle-timeout", "2592001"], ["--idle-timeout", "x"], ["--idle-timeout", ""], ["--idle-timeout"]]
WRONG += [["--metrics", it] for it in ("0", "65536", "x", "", "127.0.0.1", "127.0.0.1:0", "::1:9150", "localhost:9150")] + [["--metrics"]]
# What memcached has and this program doesn't: options that stand alone, and options with a value.
FLAGS, VALUED = "dSZkrFAi", "uPsaYDe"


class CommandLines(ProgramCase):
    def test_values_that_an_option_does_not_take(self):
        for words in WRONG:
            with self.subTest(" ".join(words)):
                ended(self.program, words, 2, rb"mcserver: [^\n]+\n\Z")

    def test_options_of_memcached(self):
        """What isn't served is refused by what to do in its place."""
        for words in [["-" + it] for it in FLAGS] + [["-" + it, "1"] for it in VALUED]:
            with self.subTest(" ".join(words)):
                ended(self.program, words, 2, rb"mcserver: '%s' \('--[a-z-]+'\) isn't served: [^\n]+\n\Z" % words[0].encode())

    def test_each_that_is_not_served_is_named_at_once(self):
        """A line each, however many there are, and none of another form."""
        words = ["-" + it for it in FLAGS] + [word for it in VALUED for word in ("-" + it, "1")]
        said = outcome(started(self.program, words), ENDS).stderr.decode().splitlines()
        self.assertEqual(sorted(FLAGS + VALUED), sorted(line.removeprefix("mcserver: '-")[:1] for line in said))

    def test_words_of_several_lines_are_said_in_one(self):
        ended(self.program, ["-m", "6\n4"], 2, rb'mcserver: -m "6\\n4": [^\n]+\n\Z')

    def test_a_word_that_is_no_text(self):
        ended(self.program, [b"-l", b"\xff"], 2, rb"mcserver: [^\n]+\n\Z")


class Help(ProgramCase):
    def test_it_fits_a_terminal(self):
        """It has 80 columns at most; the options that serve come first, and those for tests last, under their own heading."""
        lines = outcome(started(self.program, ["--help"]), ENDS).stdout.decode().splitlines()
        self.assertEqual([], [line for line in lines if len(line) > 80])
        at = {name: next(i for i, line in enumerate(lines) if name in line) for name in PLACES}
        self.assertEqual(PLACES, sorted(PLACES, key=at.get))


# What stands in the help, in this order.
PLACES = ["Options:", "-l, --listen", "-p, --port", "-m, --memory-limit", "-U, --udp-port", "-h, --help", "For tests:", "--stdin", "--now", "Exit status:"]
