# What the clients' scripts in Perl share: calls that are made as they are written, and what each is to give.
package Checks;
use strict;
use warnings;
use Exporter 'import';
use IO::Socket::INET;
use Data::Dumper;

our @EXPORT = qw(about gives is_true restart end_of_checks);
my ($passed, $failed) = (0, 0);
# A number and the text of it are written alike, and a hash's keys in order.
($Data::Dumper::Useperl, $Data::Dumper::Sortkeys, $Data::Dumper::Indent, $Data::Dumper::Terse) = (1, 1, 0, 1);
$| = 1;

# Says what the checks that follow are about.
sub about { print "$_[0]\n" }

sub shown { return substr(Dumper($_[0]), 0, 300) }

sub count {
    my ($call, $is_right, $wanted, $seen) = @_;
    if ($is_right) { $passed++; return }
    $failed++;
    print "FAILED called $call\n       expected ", shown($wanted), "\n       seen ", shown($seen), "\n";
}

# Makes a call that is written as a text, in the script's own package.
sub seen {
    my ($call) = @_;
    my $seen = eval "package main; no strict; scalar($call)";
    return $@ ? "died: $@" : $seen;
}

# The call gives a value that is equal to the wanted one.
sub gives {
    my ($call, $wanted) = @_;
    my $seen = seen($call);
    count($call, Dumper($wanted) eq Dumper($seen), $wanted, $seen);
}

# The call gives something true, and doesn't die.
sub is_true {
    my ($call) = @_;
    my $seen = seen($call);
    count($call, $seen && $seen !~ /^died: /, 'something true', $seen);
}

# Has the server killed and started anew, with nothing in it.
sub restart {
    my ($control) = @_;
    my $asking = IO::Socket::INET->new(PeerAddr => "127.0.0.1:$control", Timeout => 10) or return 0;
    print $asking "restart\n";
    return (<$asking> // '') eq "done\n";
}

sub end_of_checks {
    print "$passed passed, $failed failed\n";
    exit($passed && !$failed ? 0 : 1);
}

1;
