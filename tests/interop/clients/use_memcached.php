<?php
// Uses PHP's extension memcached, over libmemcached, as its manual does (https://www.php.net/memcached).
require __DIR__ . '/checks.php';
[, $port, $silent, $control] = array_map('intval', $argv);

function clientOf(int $port, array $options = []): Memcached
{
    $client = new Memcached();
    $client->setOptions($options + [Memcached::OPT_BINARY_PROTOCOL => false]);
    $client->addServer('127.0.0.1', $port);
    return $client;
}

// Adds one by a loop of cas, while another client does so in turn with it.
function countUp(int $port, string $key, int $times): array
{
    [$first, $second, $refused] = [clientOf($port), clientOf($port), 0];
    for ($i = 0; $i < $times; $i++) {
        $mine = $first->get($key, null, Memcached::GET_EXTENDED);
        $other = $second->get($key, null, Memcached::GET_EXTENDED);
        $second->cas($other['cas'], $key, $other['value'] + 1);
        while (!$first->cas($mine['cas'], $key, $mine['value'] + 1)) {
            $refused++;
            $mine = $first->get($key, null, Memcached::GET_EXTENDED);
        }
    }
    return [$first->get($key), $refused];
}

$m = clientOf($port);
$many = [];
for ($i = 0; $i < 1000; $i++) {
    $many["many:$i"] = "value $i " . str_repeat('x', $i % 200);
}
$object = new stdClass();
$object->name = 'an object';
$check = new Checks(compact('m', 'port', 'silent', 'control', 'many', 'object'));

$check->about('set, get, delete, add, replace, append, prepend');
$check->gives('$m->set("key", "value")', true);
$check->gives('$m->get("key")', 'value');
$check->gives('$m->get("none")', false);
$check->gives('$m->getResultCode() === Memcached::RES_NOTFOUND', true);
$check->gives('$m->add("key", "x")', false);
$check->gives('$m->getResultCode() === Memcached::RES_NOTSTORED', true);
$check->gives('$m->add("added", "first")', true);
$check->gives('$m->replace("added", "second")', true);
$check->gives('$m->replace("none", "x")', false);
$check->gives('$m->setOption(Memcached::OPT_COMPRESSION, false)', true);
$check->gives('$m->append("added", " and")', true);
$check->gives('$m->prepend("added", "the ")', true);
$check->gives('$m->get("added")', 'the second and');
$check->gives('$m->setOption(Memcached::OPT_COMPRESSION, true)', true);
$check->gives('$m->delete("added")', true);
$check->gives('$m->delete("added")', false);
$check->gives('$m->set("empty", "") && $m->get("empty") === ""', true);
$check->gives('$m->set(str_repeat("k", 250), "long") && $m->get(str_repeat("k", 250)) === "long"', true);
$check->gives('array_values($m->getVersion())[0] >= "1."', true);

$check->about('flags, serialised and compressed values');
$check->gives('$m->set("array", ["a" => [1, 2.5, null, true]])', true);
$check->gives('$m->get("array")', ['a' => [1, 2.5, null, true]]);
$check->gives('$m->set("object", $object) && $m->get("object") == $object', true);
$check->gives('$m->set("int", 17) && $m->get("int") === 17', true);
$check->gives('$m->set("float", 1.5) && $m->get("float") === 1.5', true);
$check->gives('$m->set("true", true) && $m->get("true") === true', true);
$check->gives('$m->set("packed", str_repeat("x", 2**21)) && $m->get("packed") === str_repeat("x", 2**21)', true);
$check->gives('$m->setOption(Memcached::OPT_COMPRESSION_TYPE, Memcached::COMPRESSION_ZLIB)', true);
$check->gives('$m->set("zlib", str_repeat("y", 2**21)) && $m->get("zlib") === str_repeat("y", 2**21)', true);
$check->gives('$m->setOption(Memcached::OPT_USER_FLAGS, 7) && $m->set("flagged", "x")', true);
$check->gives('$m->get("flagged", null, Memcached::GET_EXTENDED)["flags"]', 7);
$check->gives('$m->setOption(Memcached::OPT_USER_FLAGS, -1)', true);
$check->gives('clientOf($port, [Memcached::OPT_PREFIX_KEY => "my:"])->set("key", "prefixed")', true);
$check->gives('$m->get("my:key")', 'prefixed');

$check->about('counters');
$check->gives('$m->set("count", 10)', true);
$check->gives('$m->increment("count")', 11);
$check->gives('$m->increment("count", 9)', 20);
$check->gives('$m->decrement("count", 15)', 5);
$check->gives('$m->decrement("count", 15)', 0);
$check->gives('$m->increment("none")', false);
$check->gives('$m->increment("key")', false);

$check->about('cas, and 200 loops of two clients');
$check->gives('$m->set("shared", 0)', true);
$check->gives('$m->cas($m->get("shared", null, Memcached::GET_EXTENDED)["cas"], "shared", 1)', true);
$check->gives('$m->cas(12345678901234, "shared", 2)', false);
$check->gives('$m->getResultCode() === Memcached::RES_DATA_EXISTS', true);
$check->gives('$m->set("shared", 0) ? countUp($port, "shared", 200) : 0', [400, 200]);

$check->about('1,000 keys at once');
$check->gives('$m->setMulti($many)', true);
$check->gives('$m->getMulti(array_keys($many)) == $many', true);
$check->gives('$m->getMulti([...array_keys($many), "none"]) == $many', true);
$check->gives('$m->getDelayed(array_keys($many), true) ? count($m->fetchAll()) : 0', 1000);
$check->gives('count(array_filter($m->deleteMulti(array_keys($many)), fn($gone) => $gone === true))', 1000);
$check->gives('$m->getMulti(array_keys($many))', []);

$check->about('touch and expiry');
$check->gives('$m->set("brief", "x", 1) && $m->set("kept", "y", 1)', true);
$check->gives('$m->touch("kept", 100)', true);
$check->gives('$m->touch("none", 100)', false);
$check->gives('usleep(2200000) || $m->get("brief")', false);
$check->gives('$m->get("kept")', 'y');

$check->about('noreply, requests that are buffered, and requests that do not block');
$check->names['quiet'] = clientOf($port, [Memcached::OPT_NOREPLY => true]);
$check->gives('array_sum(array_map(fn($i) => (int)$quiet->set("quiet$i", $i), range(1, 500)))', 500);
$check->gives('$quiet->get("quiet500")', 500);
$check->gives('count($m->getMulti(array_map(fn($i) => "quiet$i", range(1, 500))))', 500);
$check->names['buffered'] = clientOf($port, [Memcached::OPT_BUFFER_WRITES => true, Memcached::OPT_NO_BLOCK => true]);
$check->gives('array_sum(array_map(fn($i) => (int)$buffered->set("buffered$i", $i), range(1, 500)))', 500);
$check->gives('$buffered->flushBuffers()', true);
$check->gives('count($m->getMulti(array_map(fn($i) => "buffered$i", range(1, 500))))', 500);

$check->about('what is refused');
$check->gives('$m->set(str_repeat("k", 251), "x")', false);
$check->gives('$m->setOption(Memcached::OPT_COMPRESSION, false) && $m->set("large", str_repeat("x", 2**21))', false);
$check->gives('$m->getResultCode() === Memcached::RES_E2BIG', true);
$check->gives('$m->get("kept")', 'y');
$check->gives('$m->set("large", str_repeat("x", 1048000)) ? strlen($m->get("large")) : 0', 1048000);

$check->about('flush');
$check->gives('$m->flush()', true);
$check->gives('$m->getMulti(["key", "large", "kept"])', []);

$check->about('reconnecting after the server was killed and started anew');
$check->gives('$m->set("before", "x") && restart($control)', true);
$check->gives('$m->get("before")', false);
$check->gives('$m->quit() && $m->set("after", "y")', true);
$check->gives('$m->get("after")', 'y');

$check->about('time-outs');
$check->gives('inTime(fn() => clientOf($silent, [Memcached::OPT_POLL_TIMEOUT => 300])->get("a"))', [true, false]);
$check->end();
