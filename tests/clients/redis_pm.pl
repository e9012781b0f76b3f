# Redis.pm: the word is the port.
use strict;
use warnings;
use Redis;

sub check { my ($is_so, $otherwise) = @_; die "$otherwise\n" unless $is_so; }

my $client = Redis->new(server => "127.0.0.1:$ARGV[0]", encoding => undef);
check($client->ping eq "PONG", "PING");
check($client->set("key:0", "hello") eq "OK" && $client->get("key:0") eq "hello", "SET, GET");
check(!defined $client->get("key:1"), "GET of nothing");

my @found;
for my $number (0 .. 199) { $client->set("key:$number", "value $number", sub { push @found, $_[0] }); }
for my $number (0 .. 199) { $client->get("key:$number", sub { push @found, $_[0] }); }
$client->wait_all_responses;
check(join(",", @found) eq join(",", ("OK") x 200, map { "value $_" } 0 .. 199), "pipeline");

my $large = "0123456789abcdef" x (1 << 18);
check($client->set("key:7", $large) eq "OK" && $client->get("key:7") eq $large, "a large value");
check($client->mset("key:1", "a", "key:2", "b") eq "OK", "MSET");
my @values = $client->mget("key:1", "key:2", "nothing");
check($values[0] eq "a" && $values[1] eq "b" && !defined $values[2], "MGET");
for my $wanted (1 .. 3) { check($client->incr("counter") == $wanted, "INCR"); }
check($client->del("key:1", "key:2", "nothing") == 2, "DEL");
eval { $client->incr("key:3"); };
check($@ =~ /not an integer/, "INCR of a text");
print "ok\n";
