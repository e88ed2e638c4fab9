<?php
// What php-memcached does over HOST PORT (Debian: php-cli, php-memcached; over libmemcached). A line for each: its name, and yes or no.

$client = new Memcached();
$client->setOption(Memcached::OPT_RECV_TIMEOUT, 5000000);
$client->addServer($argv[1], (int) $argv[2]);
$large = random_bytes(1000000);
$many = [];
for ($at = 0; $at < 100; $at++) {
    $many["ph:many:$at"] = "$at";
}

function tried(string $name, callable $call): void
{
    global $client;
    echo $name, ' ', $call() ? 'yes' : 'no: ' . $client->getResultMessage(), "\n";
}

function cas(): bool
{
    global $client;
    $unique = $client->get('ph:a', null, Memcached::GET_EXTENDED)['cas'];
    return $client->cas($unique, 'ph:a', 'by cas') && !$client->cas($unique, 'ph:a', 'late') && $client->get('ph:a') === 'by cas';
}

function expiry(): bool
{
    global $client;
    $client->set('ph:short', 'x', 1);
    $client->set('ph:kept', 'x', 1);
    $client->touch('ph:kept', 60);
    usleep(2100000);
    return $client->get('ph:short') === false && $client->get('ph:kept') === 'x';
}

$client->deleteMulti(array_merge(['ph:a', 'ph:b', 'ph:n', 'ph:none'], array_keys($many)));
$client->setOption(Memcached::OPT_COMPRESSION, false);
tried('set', fn() => $client->set('ph:a', 'one'));
tried('get', fn() => $client->get('ph:a') === 'one' && $client->get('ph:none') === false);
tried('add', fn() => $client->add('ph:b', 'two') && !$client->add('ph:b', 'three') && $client->get('ph:b') === 'two');
tried('replace', fn() => $client->replace('ph:b', 'four') && !$client->replace('ph:none', 'x'));
tried('append', fn() => $client->append('ph:b', '+') && $client->get('ph:b') === 'four+');
tried('prepend', fn() => $client->prepend('ph:b', '-') && $client->get('ph:b') === '-four+');
tried('cas', 'cas');
tried('incr', fn() => $client->set('ph:n', 41) && $client->increment('ph:n') === 42 && $client->increment('ph:none') === false);
tried('decr', fn() => $client->decrement('ph:n', 50) === 0);
tried('delete', fn() => $client->delete('ph:b') && !$client->delete('ph:b'));
tried('touch', fn() => $client->touch('ph:a', 60) && !$client->touch('ph:none', 60));
tried('expiry', 'expiry');
tried('large', fn() => $client->set('ph:large', $large) && $client->get('ph:large') === $large);
tried('many', fn() => $client->setMulti($many) && $client->getMulti(array_keys($many)) == $many);
tried('version', fn() => $client->getVersion());
tried('stats', fn() => $client->getStats());
tried('flush_all', fn() => $client->flush());
