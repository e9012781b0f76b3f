<?php
// phpredis: the word is the port.
function check(bool $is_so, string $otherwise): void
{
    if (!$is_so) {
        fwrite(STDERR, "$otherwise\n");
        exit(1);
    }
}

$client = new Redis();
check($client->connect("127.0.0.1", (int) $argv[1]), "connect");
check((bool) $client->ping(), "PING");
check($client->set("key:0", "hello") && $client->get("key:0") === "hello", "SET, GET");
check($client->get("key:1") === false, "GET of nothing");
check($client->set("key:0", "other", ["nx"]) === false, "SET NX");

$pipeline = $client->multi(Redis::PIPELINE);
for ($number = 0; $number < 200; $number++) {
    $pipeline->set("key:$number", "value $number");
}
for ($number = 0; $number < 200; $number++) {
    $pipeline->get("key:$number");
}
$wanted = array_merge(array_fill(0, 200, true), array_map(fn($it) => "value $it", range(0, 199)));
check($pipeline->exec() === $wanted, "pipeline");

$large = str_repeat("0123456789abcdef", 1 << 18);
check($client->set("key:7", $large) && $client->get("key:7") === $large, "a large value");
check($client->mset(["key:1" => "a", "key:2" => "b"]), "MSET");
check($client->mget(["key:1", "key:2", "nothing"]) === ["a", "b", false], "MGET");
foreach ([1, 2, 3] as $wanted) {
    check($client->incr("counter") === $wanted, "INCR");
}
check($client->del("key:1", "key:2", "nothing") === 2, "DEL");
check($client->incr("key:3") === false && str_contains($client->getLastError(), "not an integer"), "INCR of a text");
echo "ok\n";
