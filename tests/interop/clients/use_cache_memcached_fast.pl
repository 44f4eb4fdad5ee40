#!/usr/bin/perl
# Uses Cache::Memcached::Fast as its documentation does (man Cache::Memcached::Fast).
use strict;
use warnings;
use FindBin;
use lib $FindBin::Bin;
use Time::HiRes qw(sleep time);
use IO::Compress::Gzip;
use IO::Uncompress::Gunzip;
use Cache::Memcached::Fast;
use Checks;

our ($port, $silent, $control) = @ARGV;
our @numbers = (0 .. 999);
our %many = map { ("many:$_" => "value $_ " . 'x' x ($_ % 200)) } @numbers;

# A client of the server with further options.
sub client_of {
    return Cache::Memcached::Fast->new({
        servers => ["127.0.0.1:$port"], io_timeout => 5, connect_timeout => 5, failure_timeout => 1,
        compress_threshold => 10_000,
        compress_methods => [\&IO::Compress::Gzip::gzip, \&IO::Uncompress::Gunzip::gunzip], @_,
    });
}

# Adds one by a loop of gets and cas, while another client does so in turn with it.
sub count_up {
    my ($key, $times) = @_;
    my ($first, $second, $refused) = (client_of(), client_of(), 0);
    for (1 .. $times) {
        my $mine = $first->gets($key);
        my $other = $second->gets($key);
        $second->cas($key, $$other[0], $$other[1] + 1) or return 'refused';
        until ($first->cas($key, $$mine[0], $$mine[1] + 1)) {
            $refused++;
            $mine = $first->gets($key);
        }
    }
    return [$first->get($key), $refused];
}

# What a get from a server that doesn't answer gives, and whether it took less than two seconds.
sub late {
    my $start = time;
    my $late = Cache::Memcached::Fast->new({ servers => ["127.0.0.1:$silent"], io_timeout => 0.3 });
    return !defined $late->get('a') && time - $start < 2;
}

our $memd = client_of();

about('set, get, delete, add, replace, append, prepend');
is_true(q{(values %{$memd->server_versions})[0] =~ /^1\./});
is_true(q{$memd->add('skey', 'text')});
gives(q{$memd->add('skey', 'x')}, '');
is_true(q{$memd->replace('skey', 'val')});
gives(q{$memd->replace('none', 'x')}, '');
is_true(q{$memd->prepend('skey', 'This is a ')});
is_true(q{$memd->append('skey', 'ue.')});
gives(q{$memd->get('skey')}, 'This is a value.');
gives(q{$memd->append('none', 'x')}, '');
gives(q{$memd->get('none')}, undef);
is_true(q{$memd->delete('skey')});
gives(q{$memd->delete('skey')}, '');
is_true(q{$memd->set('empty', '')});
gives(q{$memd->get('empty')}, '');
is_true(q{$memd->set('k' x 250, 'long') && $memd->get('k' x 250) eq 'long'});

about('serialised and compressed values, texts in UTF-8, and a namespace');
is_true(q{$memd->set('hash', { a => 1, b => [2, 3] })});
gives(q{$memd->get('hash')}, { a => 1, b => [2, 3] });
is_true(q{$memd->set('packed', 'x' x 500_000)});
is_true(q{$memd->get('packed') eq 'x' x 500_000});
is_true(q{$memd->set('bytes', join('', map { chr } 0 .. 255) x 20)});
is_true(q{$memd->get('bytes') eq join('', map { chr } 0 .. 255) x 20});
our $utf8 = client_of(utf8 => 1);
is_true(q{$utf8->set('text', "\x{263a}" x 10) && $utf8->get('text') eq "\x{263a}" x 10});
our $prefixed = client_of(namespace => 'my:');
is_true(q{$prefixed->set('key', 'prefixed')});
gives(q{$memd->get('my:key')}, 'prefixed');

about('counters');
is_true(q{$memd->set('nkey', 5)});
gives(q{$memd->incr('nkey', 10)}, 15);
gives(q{$memd->decr('nkey', 3)}, 12);
is_true(q{$memd->decr('nkey', 100) == 0});
gives(q{$memd->incr('none')}, '');
is_true(q{$memd->set_multi(map { [$_, 0] } qw(c1 c2 c3))});
gives(q{$memd->incr_multi(['c1', 2], 'c2', ['c3', 10])}, { c1 => 2, c2 => 1, c3 => 10 });
gives(q{$memd->get_multi(qw(c1 c2 c3))}, { c1 => 2, c2 => 1, c3 => 10 });

about('gets and cas, and 200 loops of two clients');
is_true(q{$memd->set('shared', 1)});
gives(q{$memd->cas('shared', ${$memd->gets('shared')}[0], 2)}, 1);
gives(q{$memd->cas('shared', 1234567890123, 3)}, '');
gives(q{$memd->gets('none')}, undef);
gives(q{$memd->set('shared', 0) && count_up('shared', 200)}, [400, 200]);

about('1,000 keys at once');
is_true(q{!grep { !$_ } values %{$memd->set_multi(map { [$_, $many{$_}] } keys %many)}});
gives(q{$memd->get_multi(keys %many)}, \%many);
gives(q{$memd->get_multi(keys %many, 'none')}, \%many);
is_true(q{scalar(keys %{$memd->gets_multi(keys %many)}) == 1000});
is_true(q{scalar(grep { $_ } values %{$memd->delete_multi(keys %many)}) == 1000});
gives(q{$memd->get_multi(keys %many)}, {});

about('touch, gat, gats and expiry');
is_true(q{$memd->set($_, "value of $_", 1)}) for qw(brief touched got1 got2 got3);
is_true(q{$memd->touch('touched', 100)});
gives(q{$memd->touch('none', 100)}, '');
gives(q{$memd->gat(100, 'got1')}, 'value of got1');
gives(q{$memd->gat_multi(100, 'got2', 'none')}, { got2 => 'value of got2' });
gives(q{${$memd->gats(100, 'got3')}[1]}, 'value of got3');
gives(q{$memd->gat(100, 'none')}, undef);
is_true(q{$memd->cas('got3', @{$memd->gats(100, 'got3')})});
is_true(q{sleep(2.2)});
gives(q{$memd->get('brief')}, undef);
gives(q{$memd->get_multi(qw(touched got1 got2 got3))}, { map { $_ => "value of $_" } qw(touched got1 got2 got3) });

about('noreply, and results that nobody waits for');
our $quiet = Cache::Memcached::Fast->new({ servers => [{ address => "127.0.0.1:$port", noreply => 1 }] });
$quiet->set("quiet$_", $_) for @numbers;
gives(q{$quiet->get('quiet999')}, 999);
gives(q{scalar keys %{$memd->get_multi(map { "quiet$_" } @numbers)}}, 1000);
our $nowait = client_of(nowait => 1);
$nowait->set("nowait$_", $_) for @numbers;
$nowait->nowait_push;
gives(q{scalar keys %{$memd->get_multi(map { "nowait$_" } @numbers)}}, 1000);

about('what is refused');
gives(q{client_of(max_size => 2**22, compress_threshold => -1)->set('large', 'x' x 2**21)}, undef);
is_true(q{$memd->get('touched')});
is_true(q{client_of(compress_threshold => -1)->set('large', 'x' x 1_048_000)});
is_true(q{length $memd->get('large') == 1_048_000});

about('flush');
is_true(q{$memd->flush_all});
gives(q{$memd->get_multi(qw(touched large got1))}, {});

about('reconnecting after the server was killed and started anew');
is_true(q{$memd->set('before', 'x') && restart($control)});
gives(q{$memd->get('before')}, undef);
is_true(q{sleep(1.2)});
is_true(q{$memd->set('after', 'y')});
gives(q{$memd->get('after')}, 'y');

about('time-outs');
is_true(q{late()});
end_of_checks();
