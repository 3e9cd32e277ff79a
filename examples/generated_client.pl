#!/usr/bin/perl
# A client that OpenAPI::Client makes of docs/openapi.yaml: examples/generated_client.pl SERVER TOKEN
#
# Opens a changeset, uploads a node, reads, moves and deletes it, and closes the changeset, each by its operationId; needs Debian's
# libopenapi-client-perl, which looks at each request by the description before it is sent. Status 0 where all calls went well.

use strict;
use warnings;
use FindBin;
use OpenAPI::Client;

die "usage: examples/generated_client.pl SERVER TOKEN\n" if @ARGV != 2 or $ARGV[0] =~ /^-/;
my ($server, $token) = @ARGV;
my $client = OpenAPI::Client->new("$FindBin::Bin/../docs/openapi.yaml");
my $address = Mojo::URL->new($server);
$client->base_url->scheme($address->scheme)->host($address->host)->port($address->port);
$client->ua->on(start => sub { $_[1]->req->headers->header(Authorization => "Bearer $token") });

# The body of the reply to an operation, which has to have that status.
sub call {
    my ($status, $operation, $given) = @_;
    my $transaction = $client->call($operation => $given);
    my $reply = $transaction->res;
    die "$operation: status ", $reply->code // 'none', ': ', $reply->body, "\n" if ($reply->code // 0) != $status;
    printf "%s %s %s: %d\n", $operation, uc $transaction->req->method, $transaction->req->url->path, $reply->code;
    return $reply->json;
}

my %place = (lat7 => 481400000, lon7 => 115400000);
my $changeset = call(200, createChangeset => {body => {tags => {comment => 'a tree'}}});
my $tree = {type => 'node', id => -1, %place, tags => {natural => 'tree'}};
my $row = call(200, uploadChange => {id => $changeset, body => {osmChange => [{create => [$tree]}]}})->{diffResult}[0];
my $node = call(200, getNode => {id => $row->{new_id}})->{elements}[0];
call(200, getMap => {bbox => '11.5,48.1,11.6,48.2'});
my $version = call(200, modifyNode => {id => $node->{id}, body => {changeset => $changeset, version => $node->{version}, %place, lat7 => 481400009}});
call(200, deleteNode => {id => $node->{id}, body => {changeset => $changeset, version => $version}});
call(410, getNode => {id => $node->{id}});
call(200, closeChangeset => {id => $changeset});
