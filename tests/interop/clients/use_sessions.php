<?php
// Keeps PHP's sessions in the server as the manuals of the extensions memcached and memcache say. The first argument names the extension.
require __DIR__ . '/checks.php';
[, $handler] = $argv;
[$port, $silent, $control] = array_map('intval', array_slice($argv, 2));

// What is printed waits till the end, as PHP changes nothing of its sessions behind the first output.
ob_start();
ini_set('session.use_cookies', '0');
ini_set('session.use_only_cookies', '0');
ini_set('session.cache_limiter', '');
ini_set('session.save_handler', $handler);
ini_set('session.save_path', $handler === 'memcached' ? "127.0.0.1:$port" : "tcp://127.0.0.1:$port");
// What docs/CLIENTS.md says to set.
ini_set('memcached.sess_binary_protocol', '0');
ini_set('memcached.sess_lock_retries', '100');

// Makes what a request makes of its session, and gives what that gave.
function request(string $id, callable $work)
{
    session_id($id);
    if (!@session_start()) {
        session_abort();
        return 'no session';
    }
    $gave = $work();
    return session_status() !== PHP_SESSION_ACTIVE || session_write_close() ? $gave : 'not stored';
}

// Counts the requests of a session.
function counted(string $id)
{
    return request($id, fn() => $_SESSION['count'] = ($_SESSION['count'] ?? 0) + 1);
}

// Makes requests of one session in processes side by side, and gives how many were counted.
function countedBy(string $id, int $processes, int $each): int
{
    $children = [];
    for ($i = 0; $i < $processes; $i++) {
        $child = pcntl_fork();
        if (!$child) {
            ob_end_clean();
            for ($j = 0; $j < $each; $j++) {
                counted($id);
            }
            exit(0);
        }
        $children[] = $child;
    }
    array_map(fn($child) => pcntl_waitpid($child, $status), $children);
    return request($id, fn() => $_SESSION['count']);
}

$check = new Checks(compact('handler', 'port', 'control'));
$isMemcached = getenv('SERVER') === 'memcached';

$check->about('a session over several requests');
$check->gives('counted("one")', 1);
$check->gives('counted("one")', 2);
$check->gives('counted("two")', 1);
$check->gives('counted("one")', 3);
$check->gives('request("one", fn() => $_SESSION["cart"] = ["bread" => 2, "price" => 3.5, "paid" => false])', ['bread' => 2, 'price' => 3.5, 'paid' => false]);
$check->gives('request("one", fn() => $_SESSION)', ['count' => 3, 'cart' => ['bread' => 2, 'price' => 3.5, 'paid' => false]]);
$check->gives('request("large", fn() => strlen($_SESSION["text"] = random_bytes(500000)))', 500000);
$check->gives('request("large", fn() => strlen($_SESSION["text"]))', 500000);
$check->gives('request("one", function () { unset($_SESSION["cart"]); return count($_SESSION); })', 1);
$check->gives('request("one", fn() => $_SESSION)', ['count' => 3]);

$check->about('an end, and a new number');
$check->gives('request("two", fn() => session_destroy())', true);
$check->gives('counted("two")', 1);
$check->gives('request("one", fn() => session_regenerate_id(true) ? session_id() !== "one" : null)', true);
$check->gives('counted("one")', 1);

$check->about('requests of one session side by side');
$check->gives('countedBy("busy", 4, 25)', 100);

$check->about('expiry');
$check->gives('ini_set("session.gc_maxlifetime", "1") !== false && counted("brief") === 1', true);
$check->gives('[usleep(2200000), counted("brief")][1]', 1);
$check->gives('ini_set("session.gc_maxlifetime", "1440") !== false', true);

if ($handler === 'memcached') {
    $check->about('the binary protocol, which is what the extension speaks if nothing is set');
    ini_set('memcached.sess_binary_protocol', '1');
    ini_set('memcached.sess_locking', '0');
    $check->gives('counted("binary")', $isMemcached ? 1 : 'no session');
    ini_set('memcached.sess_binary_protocol', '0');
    ini_set('memcached.sess_locking', '1');
}

$check->about('after the server was killed and started anew');
$check->gives('counted("after") === 1 && restart($control)', true);
$check->gives('counted("after")', 1);
$check->gives('counted("after")', 2);
$check->end();
