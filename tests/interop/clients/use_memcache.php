<?php
// Uses PHP's extension memcache as its manual does (https://www.php.net/memcache).
require __DIR__ . '/checks.php';
[, $port, $silent, $control] = array_map('intval', $argv);

function clientOf(int $port): Memcache
{
    $client = new Memcache();
    $client->connect('127.0.0.1', $port, 1);
    return $client;
}

// Gives the value, the flags and the unique number of a key.
function fetched(Memcache $client, string $key): array
{
    $flags = $unique = null;
    $value = $client->get($key, $flags, $unique);
    return [$value, $flags, $unique];
}

// Adds one by a loop of cas, while another client does so in turn with it.
function countUp(int $port, string $key, int $times): array
{
    [$first, $second, $refused] = [clientOf($port), clientOf($port), 0];
    for ($i = 0; $i < $times; $i++) {
        $mine = fetched($first, $key);
        $other = fetched($second, $key);
        $second->cas($key, $other[0] + 1, 0, 0, $other[2]);
        while (!$first->cas($key, $mine[0] + 1, 0, 0, $mine[2])) {
            $refused++;
            $mine = fetched($first, $key);
        }
    }
    return [(int)$first->get($key), $refused];
}

$memcache = clientOf($port);
$many = [];
for ($i = 0; $i < 1000; $i++) {
    $many["many:$i"] = "value $i " . str_repeat('x', $i % 200);
}
$isMemcached = getenv('SERVER') === 'memcached';
$check = new Checks(compact('memcache', 'port', 'silent', 'control', 'many'));

$check->about('set, get, delete, add, replace, append, prepend');
$check->gives('$memcache->set("key", "value", 0, 0)', true);
$check->gives('$memcache->get("key")', 'value');
$check->gives('$memcache->get("none")', false);
$check->gives('$memcache->add("key", "x")', false);
$check->gives('$memcache->add("added", "first")', true);
$check->gives('$memcache->replace("added", "second")', true);
$check->gives('$memcache->replace("none", "x")', false);
$check->gives('$memcache->append("added", " and")', true);
$check->gives('$memcache->prepend("added", "the ")', true);
$check->gives('$memcache->get("added")', 'the second and');
$check->gives('$memcache->delete("added")', true);
$check->gives('$memcache->delete("added")', false);
$check->gives('$memcache->set("empty", "") && $memcache->get("empty") === ""', true);
$check->gives('str_starts_with($memcache->getVersion(), "1.")', true);

$check->about('flags, serialised and compressed values');
$check->gives('$memcache->set("array", ["a" => [1, 2.5, true]]) && $memcache->get("array") == ["a" => [1, 2.5, true]]', true);
$check->gives('$memcache->set("int", 17) && $memcache->get("int") === 17', true);
$check->gives('$memcache->set("packed", str_repeat("x", 2**21), MEMCACHE_COMPRESSED)', true);
$check->gives('$memcache->get("packed") === str_repeat("x", 2**21)', true);
$check->gives('$memcache->set("flagged", "x", 2**16) && fetched($memcache, "flagged")[1] === 2**16', true);
$check->gives('$memcache->setCompressThreshold(20000, 0.2) && $memcache->set("large", str_repeat("y", 100000))', true);
$check->gives('$memcache->get("large") === str_repeat("y", 100000)', true);

$check->about('counters');
$check->gives('$memcache->set("count", 10)', true);
$check->gives('$memcache->increment("count")', 11);
$check->gives('$memcache->increment("count", 9)', 20);
$check->gives('$memcache->decrement("count", 15)', 5);
$check->gives('$memcache->decrement("count", 15)', 0);
$check->gives('$memcache->increment("none")', false);

$check->about('cas, and 200 loops of two clients');
$check->gives('$memcache->set("shared", 0)', true);
$check->gives('$memcache->cas("shared", 1, 0, 0, fetched($memcache, "shared")[2])', true);
$check->gives('$memcache->cas("shared", 2, 0, 0, 12345678901234)', false);
$check->gives('$memcache->set("shared", 0) ? countUp($port, "shared", 200) : 0', [400, 200]);

$check->about('1,000 keys at once');
$check->gives('array_sum(array_map(fn($key) => (int)$memcache->set($key, $many[$key]), array_keys($many)))', 1000);
$check->gives('$memcache->get(array_keys($many)) == $many', true);
$check->gives('$memcache->get([...array_keys($many), "none"]) == $many', true);

$check->about('expiry');
$check->gives('$memcache->set("brief", "x", 0, 1) && $memcache->set("kept", "y", 0, 100)', true);
$check->gives('usleep(2200000) || $memcache->get("brief")', false);
$check->gives('$memcache->get("kept")', 'y');

// It sends -1 as 4294967295, a moment of 2106, which memcached takes for one that is past. 2592001 is one of January 1970 to both.
$check->about('expiries that are past');
$check->gives('$memcache->set("past", "x", 0, -1) ? $memcache->get("past") : null', $isMemcached ? false : 'x');
$check->gives('$memcache->set("past", "x", 0, 2592001) ? $memcache->get("past") : null', false);

$check->about('getStats, after which it asks a server that has no stats for nothing more for 15 seconds');
$check->names['asking'] = clientOf($port);
$check->gives('is_array(@$asking->getStats())', $isMemcached);
$check->gives('@$asking->get("kept")', $isMemcached ? 'y' : false);
$check->gives('clientOf($port)->get("kept")', 'y');

$check->about('flush');
$check->gives('$memcache->flush()', true);
$check->gives('$memcache->get(["key", "kept", "large"])', []);

$check->about('reconnecting after the server was killed and started anew');
$check->gives('$memcache->set("before", "x") && restart($control)', true);
$check->gives('@$memcache->get("before")', false);
$check->gives('clientOf($port)->set("after", "y")', true);
$check->gives('clientOf($port)->get("after")', 'y');

$check->about('time-outs');
$check->gives('inTime(function () use ($silent) { $it = new Memcache(); $it->addServer("127.0.0.1", $silent, false, 1, 1);
    return @$it->get("a"); })', [true, false]);
$check->end();
