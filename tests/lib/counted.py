"""What the server's metrics are to count of commands, counted beside the model and of what callers were told."""
import collections

NAMES = {"set": "set", "add": "set", "replace": "set", "append": "set", "prepend": "set", "cas": "cas", "get": "get", "gat": "touch"}
STORED = "memcached_items_total"


def command(name, status):
    """The name of a sample of commands."""
    return f'memcached_commands_total{{command="{name}",status="{status}"}}'


class Counting:
    """Of a model's store: counts each step as the server counts it."""

    def __init__(self, *given):
        super().__init__(*given)
        self.counted = collections.Counter()

    def count_of(self, name, text, missed=b"NOT_FOUND\r\n"):
        self.counted[command(name, "miss" if text == missed else "hit")] += 1
        return text

    def store(self, *given):
        text = super().store(*given)
        # a joined block that is too large is counted as such
        if text in (b"STORED\r\n", b"NOT_STORED\r\n"):
            self.count_of("set", text)
            self.counted[STORED] += text == b"STORED\r\n"
        return text

    def cas(self, *given):
        text = super().cas(*given)
        if text == b"EXISTS\r\n":
            self.counted[command("cas", "badval")] += 1
        else:
            self.count_of("cas", text)
            self.counted[STORED] += text == b"STORED\r\n"
        return text

    def read(self, key, with_unique, exptime=None):
        text = super().read(key, with_unique, exptime)
        return self.count_of("get" if exptime is None else "touch", text, b"")

    def touch(self, *given):
        return self.count_of("touch", super().touch(*given))

    def delete(self, *given):
        return self.count_of("delete", super().delete(*given))

    def count(self, key, up, by):
        text = super().count(key, up, by)
        if text.startswith(b"CLIENT_ERROR"):
            return text
        return self.count_of("incr" if up else "decr", text)


def of_record(words):
    """What is counted for a call of a record: its command, and then what was told."""
    verb, told = words[0], next(it for it in words[1:] if it.isupper() and it.isidentifier())
    name, is_stored = NAMES.get(verb, verb), told == "STORED"
    if told in ("NOT_NUMERIC",):
        return []
    status = {"EXISTS": "badval", "NOT_FOUND": "miss", "MISS": "miss"}.get(told, "hit")
    return [command(name, status), *([STORED] if is_stored else [])]
