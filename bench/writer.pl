#!/usr/bin/env perl
# Writes a file of the same records by MaxMind::DB::Writer: perl bench/writer.pl STATISTICS FILE
use strict;
use warnings;

use MaxMind::DB::Writer::Tree;

my ( $statistics, $file ) = @ARGV;
my %types = ( country => 'map', iso_code => 'utf8_string' );
my $tree  = MaxMind::DB::Writer::Tree->new(
    ip_version               => 6,
    record_size              => 28,
    database_type            => 'Geofeed-City',
    languages                => ['en'],
    description              => { en => 'Geofeed-City' },
    alias_ipv6_to_ipv4       => 0,
    remove_reserved_networks => 0,
    map_key_type_callback    => sub { $types{ $_[0] } },
);

my %record;
open my $lines, '<', $statistics or die "$statistics: $!";
while ( my $line = <$lines> ) {
    my ( undef, $country, $type, $start, $value, undef, $status ) = split /\|/, $line;
    next if !defined $status || $status !~ /^(?:allocated|assigned)$/;
    my $record = $record{$country} ||= { country => { iso_code => $country } };
    if ( $type eq 'ipv4' ) {
        my $first = unpack 'N', pack 'C4', split /\./, $start;
        my $last = join '.', unpack 'C4', pack 'N', $first + $value - 1;
        $tree->insert_range( $start, $last, $record );
    }
    elsif ( $type eq 'ipv6' ) {
        $tree->insert_network( "$start/$value", $record );
    }
}
close $lines or die "$statistics: $!";

open my $out, '>:raw', $file or die "$file: $!";
$tree->write_tree($out);
close $out or die "$file: $!";
