<?php
// What php-memcache does over HOST PORT (Debian: php-cli, php-memcache; the older extension). A line for each: its name, and yes or no.

$client = new Memcache();
$client->addServer($argv[1], (int) $argv[2], false, 1, 5);
$client->setCompressThreshold(2000000, 1.0);
$large = random_bytes(1000000);
$many = [];
for ($at = 0; $at < 100; $at++) {
    $many["pg:many:$at"] = "$at";
}

function tried(string $name, callable $call): void
{
    error_clear_last();
    echo $name, ' ', @$call() ? 'yes' : 'no: ' . (error_get_last()['message'] ?? 'no reason is given'), "\n";
}

function cas(): bool
{
    global $client;
    $client->get('pg:a', $flags, $unique);
    return $client->cas('pg:a', 'by cas', 0, 0, $unique) && !$client->cas('pg:a', 'late', 0, 0, $unique) && $client->get('pg:a') === 'by cas';
}

function expiry(): bool
{
    global $client;
    $client->set('pg:short', 'x', 0, 1);
    $client->set('pg:kept', 'x', 0, 60);
    usleep(2100000);
    return $client->get('pg:short') === false && $client->get('pg:kept') === 'x';
}

// Several keys are asked in one get.
function many(): bool
{
    global $client, $many;
    foreach ($many as $key => $value) {
        $client->set($key, $value);
    }
    return $client->get(array_keys($many)) == $many;
}

foreach (array_merge(['pg:a', 'pg:b', 'pg:n', 'pg:none'], array_keys($many)) as $key) {
    $client->delete($key);
}
tried('set', fn() => $client->set('pg:a', 'one'));
tried('get', fn() => $client->get('pg:a') === 'one' && $client->get('pg:none') === false);
tried('add', fn() => $client->add('pg:b', 'two') && !$client->add('pg:b', 'three') && $client->get('pg:b') === 'two');
tried('replace', fn() => $client->replace('pg:b', 'four') && !$client->replace('pg:none', 'x'));
tried('append', fn() => $client->append('pg:b', '+') && $client->get('pg:b') === 'four+');
tried('prepend', fn() => $client->prepend('pg:b', '-') && $client->get('pg:b') === '-four+');
tried('cas', 'cas');
tried('incr', fn() => $client->set('pg:n', '41') && $client->increment('pg:n') === 42 && $client->increment('pg:none') === false);
tried('decr', fn() => $client->decrement('pg:n', 50) === 0);
tried('delete', fn() => $client->delete('pg:b') && !$client->delete('pg:b'));
tried('expiry', 'expiry');
tried('large', fn() => $client->set('pg:large', $large) && $client->get('pg:large') === $large);
tried('many', 'many');
tried('version', fn() => $client->getVersion());
tried('stats', fn() => $client->getStats());
tried('flush_all', fn() => $client->flush());
