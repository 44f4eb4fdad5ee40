<?php
// What the clients' scripts in PHP share: calls that are made as they are written, and what each is to give.
error_reporting(E_ALL & ~E_DEPRECATED);

class Checks
{
    public int $passed = 0;
    public int $failed = 0;

    // `names` are the variables that the calls may speak of.
    public function __construct(public array $names)
    {
    }

    // Says what the checks that follow are about.
    public function about(string $what): void
    {
        print("$what\n");
    }

    private function count(string $call, bool $isRight, $wanted, $seen): void
    {
        if ($isRight) {
            $this->passed++;
            return;
        }
        $this->failed++;
        $shown = fn($value) => substr(str_replace("\n", ' ', var_export($value, true)), 0, 300);
        print("FAILED called $call\n       expected {$shown($wanted)}\n       seen {$shown($seen)}\n");
    }

    // Makes a call that is written as a text, and gives what it gave, or what was thrown.
    private function seen(string $call)
    {
        extract($this->names);
        try {
            return eval("return $call;");
        } catch (Throwable $error) {
            return 'thrown ' . get_class($error) . ': ' . $error->getMessage();
        }
    }

    // The call gives a value of the wanted one's type that is equal to it.
    public function gives(string $call, $wanted): void
    {
        $seen = $this->seen($call);
        $this->count($call, is_object($wanted) || is_array($wanted) ? $seen == $wanted : $seen === $wanted, $wanted, $seen);
    }

    // Prints the counts, and ends with status 0 where something passed and nothing failed.
    public function end(): void
    {
        print("{$this->passed} passed, {$this->failed} failed\n");
        exit($this->passed && !$this->failed ? 0 : 1);
    }
}

// Has the server killed and started anew, with nothing in it.
function restart(int $control): bool
{
    $asking = stream_socket_client("tcp://127.0.0.1:$control", $code, $text, 10);
    stream_set_timeout($asking, 10);
    fwrite($asking, "restart\n");
    return fgets($asking) === "done\n";
}

// Gives whether a call took less than two seconds, and what it gave.
function inTime(callable $call): array
{
    $start = microtime(true);
    $gave = $call();
    return [microtime(true) - $start < 2, $gave];
}
