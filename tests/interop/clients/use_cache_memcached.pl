#!/usr/bin/perl
# Uses Cache::Memcached as its documentation does (man Cache::Memcached).
use strict;
use warnings;
use FindBin;
use lib $FindBin::Bin;
use Time::HiRes qw(sleep time);
use Cache::Memcached;
use Checks;

our ($port, $silent, $control) = @ARGV;
our $memd = Cache::Memcached->new({ servers => ["127.0.0.1:$port"], compress_threshold => 10_000 });
our %many = map { ("many:$_" => "value $_ " . 'x' x ($_ % 200)) } 0 .. 999;

# What a get from a server that doesn't answer gives, and whether it took less than three seconds.
sub late {
    my $start = time;
    my $late = Cache::Memcached->new({ servers => ["127.0.0.1:$silent"], select_timeout => 0.3 });
    return !defined $late->get('a') && time - $start < 3;
}

about('set, get, delete, add, replace, append, prepend');
is_true(q{$memd->set('my_key', 'Some value')});
gives(q{$memd->get('my_key')}, 'Some value');
gives(q{$memd->get('none')}, undef);
is_true(q{!$memd->add('my_key', 'x')});
is_true(q{$memd->add('added', 'first')});
is_true(q{$memd->replace('added', 'second')});
is_true(q{!$memd->replace('none', 'x')});
is_true(q{$memd->append('added', ' and')});
is_true(q{$memd->prepend('added', 'the ')});
gives(q{$memd->get('added')}, 'the second and');
is_true(q{$memd->delete('added')});
is_true(q{!$memd->delete('added')});
is_true(q{$memd->set('empty', '')});
gives(q{$memd->get('empty')}, '');
is_true(q{$memd->set([17, 'hashed'], 'x') && $memd->get([17, 'hashed']) eq 'x'});
is_true(q{$memd->set('k' x 250, 'long') && $memd->get('k' x 250) eq 'long'});

about('serialised and compressed values, and a namespace');
is_true(q{$memd->set('object_key', { complex => ['object', 2, 4] })});
gives(q{$memd->get('object_key')}, { complex => ['object', 2, 4] });
is_true(q{$memd->set('packed', 'x' x 1_000_000)});
is_true(q{$memd->get('packed') eq 'x' x 1_000_000});
is_true(q{$memd->enable_compress(0), $memd->set('bytes', join('', map { chr } 0 .. 255) x 40)});
is_true(q{$memd->get('bytes') eq join('', map { chr } 0 .. 255) x 40});
our $prefixed = Cache::Memcached->new({ servers => ["127.0.0.1:$port"], namespace => 'app1:' });
is_true(q{$prefixed->set('key', 'prefixed')});
gives(q{$memd->get('app1:key')}, 'prefixed');

about('counters');
is_true(q{$memd->set('key', 10)});
gives(q{$memd->incr('key')}, 11);
gives(q{$memd->incr('key', 9)}, 20);
gives(q{$memd->decr('key')}, 19);
gives(q{$memd->decr('key', 100)}, 0);
gives(q{$memd->incr('none')}, undef);

about('1,000 keys at once');
is_true(q{!grep { !$memd->set($_, $many{$_}) } keys %many});
gives(q{$memd->get_multi(keys %many)}, \%many);
gives(q{$memd->get_multi(keys %many, 'none')}, \%many);
is_true(q{!grep { !$memd->delete($_) } keys %many});
gives(q{$memd->get_multi(keys %many)}, {});

about('expiry');
is_true(q{$memd->set('brief', 'x', 1) && $memd->set('kept', 'y', 100)});
is_true(q{sleep(2.2)});
gives(q{$memd->get('brief')}, undef);
gives(q{$memd->get('kept')}, 'y');

about('calls whose result nobody takes');
$memd->set("quiet$_", $_) for 1 .. 500;
gives(q{scalar keys %{$memd->get_multi(map { "quiet$_" } 1 .. 500)}}, 500);

about('what is refused');
is_true(q{!$memd->set('large', 'x' x 2**21)});
is_true(q{$memd->set('large', 'x' x 1_048_000) && length $memd->get('large') == 1_048_000});

about('flush');
is_true(q{$memd->flush_all});
gives(q{$memd->get_multi(qw(my_key large kept))}, {});

about('reconnecting after the server was killed and started anew');
is_true(q{$memd->set('before', 'x') && restart($control)});
gives(q{$memd->get('before')}, undef);
is_true(q{$memd->disconnect_all, $memd->forget_dead_hosts, 1});
is_true(q{$memd->set('after', 'y')});
gives(q{$memd->get('after')}, 'y');

about('time-outs');
is_true(q{late()});
end_of_checks();
