# What Cache::Memcached does over HOST PORT (Debian: libcache-memcached-perl). A line for each: its name, and yes or no.

use strict;
use warnings;
use Cache::Memcached;

$| = 1;
my $client = Cache::Memcached->new({ servers => ["$ARGV[0]:$ARGV[1]"], compress_threshold => 0 });
my $large = '0123456789' x 100_000;
my %many = map { ("pe:many:$_" => "$_") } 0 .. 99;

sub tried {
    my ($name, $call) = @_;
    my $right = eval { $call->() };
    print "$name ", $right ? 'yes' : $@ ? "no: $@" : 'no', "\n";
}

sub expiry {
    $client->set('pe:short', 'x', 1);
    sleep 3;
    return !defined $client->get('pe:short');
}

# Several keys are asked in one get.
sub many {
    $client->set($_, $many{$_}) for keys %many;
    my $read = $client->get_multi(keys %many);
    return keys %$read == 100 && !grep { $read->{$_} ne $many{$_} } keys %many;
}

$client->delete($_) for 'pe:a', 'pe:b', 'pe:n', 'pe:none', keys %many;
tried('set', sub { $client->set('pe:a', 'one') });
tried('get', sub { $client->get('pe:a') eq 'one' && !defined $client->get('pe:none') });
tried('add', sub { $client->add('pe:b', 'two') && !$client->add('pe:b', 'three') && $client->get('pe:b') eq 'two' });
tried('replace', sub { $client->replace('pe:b', 'four') && !$client->replace('pe:none', 'x') });
tried('append', sub { $client->append('pe:b', '+') && $client->get('pe:b') eq 'four+' });
tried('prepend', sub { $client->prepend('pe:b', '-') && $client->get('pe:b') eq '-four+' });
tried('incr', sub { $client->set('pe:n', '41') && $client->incr('pe:n') == 42 && !defined $client->incr('pe:none') });
tried('decr', sub { $client->decr('pe:n', 50) == 0 });
tried('delete', sub { $client->delete('pe:b') && !$client->delete('pe:b') });
tried('expiry', \&expiry);
tried('large', sub { $client->set('pe:large', $large) && $client->get('pe:large') eq $large });
tried('many', \&many);
tried('stats', sub { $client->stats(['misc'])->{hosts}{"$ARGV[0]:$ARGV[1]"}{misc}{pid} });
tried('flush_all', sub { $client->flush_all });
