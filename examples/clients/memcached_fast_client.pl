# What Cache::Memcached::Fast does over HOST PORT (Debian: libcache-memcached-fast-perl). A line for each: its name, and yes or no.

use strict;
use warnings;
use Cache::Memcached::Fast;

$| = 1;
my $address = "$ARGV[0]:$ARGV[1]";
my $client = Cache::Memcached::Fast->new({ servers => [$address], io_timeout => 5 });
my $quiet = Cache::Memcached::Fast->new({ servers => [{ address => $address, noreply => 1 }], io_timeout => 5 });
my $large = '0123456789' x 100_000;
my %many = map { ("pf:many:$_" => "$_") } 0 .. 99;

sub tried {
    my ($name, $call) = @_;
    my $right = eval { $call->() };
    print "$name ", $right ? 'yes' : $@ ? "no: $@" : 'no', "\n";
}

sub cas {
    my $old = $client->gets('pf:a');
    return $client->cas('pf:a', $old->[0], 'by cas') && !$client->cas('pf:a', $old->[0], 'late') && $client->get('pf:a') eq 'by cas';
}

sub expiry {
    $client->set($_, 'x', 1) for 'pf:short', 'pf:kept';
    $client->touch('pf:kept', 60);
    sleep 3;
    return !defined $client->get('pf:short') && $client->get('pf:kept') eq 'x';
}

# A call is sent with `noreply` where nobody takes its result.
sub noreply {
    $quiet->set('pf:b', 'quiet');
    return $quiet->get('pf:b') eq 'quiet';
}

# Several keys are asked in one get.
sub many {
    $client->set_multi(map { [$_, $many{$_}] } keys %many);
    my $read = $client->get_multi(keys %many);
    return keys %$read == 100 && !grep { $read->{$_} ne $many{$_} } keys %many;
}

$client->delete_multi('pf:a', 'pf:b', 'pf:n', 'pf:none', keys %many);
tried('set', sub { $client->set('pf:a', 'one') });
tried('get', sub { $client->get('pf:a') eq 'one' && !defined $client->get('pf:none') });
tried('add', sub { $client->add('pf:b', 'two') && !$client->add('pf:b', 'three') && $client->get('pf:b') eq 'two' });
tried('replace', sub { $client->replace('pf:b', 'four') && !$client->replace('pf:none', 'x') });
tried('append', sub { $client->append('pf:b', '+') && $client->get('pf:b') eq 'four+' });
tried('prepend', sub { $client->prepend('pf:b', '-') && $client->get('pf:b') eq '-four+' });
tried('cas', \&cas);
tried('incr', sub { $client->set('pf:n', '41') && $client->incr('pf:n') == 42 && !$client->incr('pf:none') });
tried('decr', sub { $client->decr('pf:n', 50) == 0 });
tried('delete', sub { $client->delete('pf:b') && !$client->delete('pf:b') });
tried('touch', sub { $client->touch('pf:a', 60) && !$client->touch('pf:none', 60) });
tried('expiry', \&expiry);
tried('noreply', \&noreply);
tried('large', sub { $client->set('pf:large', $large) && $client->get('pf:large') eq $large });
tried('many', \&many);
tried('version', sub { $client->server_versions->{$address} });
tried('flush_all', sub { $client->flush_all->{$address} });
