#!/usr/bin/perl
# Writes the cases that another program answers: the check by the Debian package libdigest-crc-perl, and datagrams, statuses, judgements, gaps
# and text lines by a few lines of Perl written from 01 and 02. The text lines (`write`) stand in reference/src/line_cases.txt, the others in
# crates/cases/stdin.
use strict;
use warnings;
use Digest::CRC;

sub check {
    my ($bytes) = @_;
    my $crc = Digest::CRC->new(width => 32, poly => 0x04C11DB7, init => 0xFFFFFFFF, xorout => 0, refin => 0, refout => 0, cont => 0);
    $crc->add($bytes);
    return $crc->digest;
}

sub padded {
    my ($bytes) = @_;
    return $bytes . "\0" x ((4 - length($bytes) % 4) % 4);
}

sub hex_of { return uc unpack("H*", $_[0]); }

# 01, Layout by identifier
my %carries = (
    0x90 => "R", 0x91 => "RA", 0x92 => "RI", 0x93 => "RAI", 0x94 => "RT", 0xA5 => "RAT", 0xA6 => "RIT", 0xA7 => "RAIT",
    0x98 => "RU", 0x99 => "RAU", 0x9A => "RIU", 0x9B => "RAIU", 0x9C => "RTU", 0xAD => "RATU", 0xAE => "RITU", 0xAF => "RAITU",
);

my $state = 20261115;
sub random_byte {
    $state = ($state * 1103515245 + 12345) % 2147483648;
    return int($state / 65536) % 256;
}

# A number of so many bytes, most significant first, with what it is in two's complement.
sub field {
    my ($count) = @_;
    my ($text, $value) = ("", 0);
    for (1 .. $count) {
        my $byte = random_byte();
        $text .= chr $byte;
        $value = $value * 256 + $byte;
    }
    my $signed = $value < 2**(8 * $count - 1) ? $value : $value - 2**(8 * $count);
    return ($text, $value, $signed);
}

# The bytes before the check of a random datagram, and its readings, statuses, counter and latency.
sub datagram {
    my ($identifier) = @_;
    my $letters = $carries{$identifier};
    my ($bytes, @readings, @statuses) = (chr $identifier);
    for my $letter ("R", "A", "I") {
        my @group = (0, 0, 0, 0);
        if ($letters =~ /$letter/) {
            for my $axis (0 .. 2) { my ($text, undef, $signed) = field(3); $bytes .= $text; $group[$axis] = $signed; }
            my ($text, $value) = field(1); $bytes .= $text; $group[3] = $value;
        }
        push @readings, @group[0 .. 2];
        push @statuses, $group[3];
    }
    if ($letters =~ /T/) {
        for my $letter ("R", "A", "I") { $bytes .= (field(7))[0] if $letters =~ /$letter/; }
    }
    $bytes .= (field(4))[0] if $letters =~ /U/;
    my ($counter_text, $counter) = field(1);
    my ($latency_text, $latency) = field(2);
    return ($bytes . $counter_text . $latency_text, @readings, @statuses, $counter, $latency);
}

printf "mpeg2 %08X %s\n", check("123456789"), hex_of("123456789");
printf "check %08X %s\n", check(padded("123456789")), hex_of("123456789");
printf "check %08X %s\n", check(""), "";
for my $identifier (sort { $a <=> $b } keys %carries) {
    my ($bytes, @values) = datagram($identifier);
    my $check = check(padded($bytes));
    printf "check %08X %s\n", $check, hex_of($bytes);
    printf "mpeg2 %08X %s\n", check($bytes), hex_of($bytes);
    printf "decodes %d %s %s\n", $identifier, join(" ", @values), hex_of($bytes);
    for my $termination (0, 1) {
        my $whole = $bytes . pack("N", $check) . ($termination ? "\r\n" : "");
        printf "accepts 1 %d %d %s\n", $identifier, $termination, hex_of($whole);
        my $damaged = $whole;
        my $at = random_byte() % length $damaged;
        substr($damaged, $at, 1) = chr(ord(substr($damaged, $at, 1)) ^ (1 << random_byte() % 8));
        printf "accepts 0 %d %d %s\n", $identifier, $termination, hex_of($damaged);
        printf "accepts 0 %d %d %s\n", $identifier, $termination, hex_of(substr($whole, 0, -1));
        printf "accepts 0 %d %d %s\n", $identifier, $termination, hex_of($whole . "\0");
        printf "accepts 0 %d %d %s\n", $identifier, 1 - $termination, hex_of($whole);
    }
}

# 02, 2.3: the judgement of an axis by its place in the paper's order, 0 fit, 1 integrity, 2 start-up, 3 error, 4 overload. The first of 1 to 4
# that applies is named: bits 7 and 6 for every axis, bits 3 and 4 for an axis whose own bit is set, or if none of bits 0 to 2 is (2.2).
sub judgement {
    my ($status, $axis) = @_;
    my @bits = reverse split //, sprintf "%08b", $status;
    my $is_named = $bits[$axis] || !grep { $_ } @bits[0 .. 2];
    my @applies = ($bits[7], $bits[6], $bits[3] && $is_named, $bits[4] && $is_named);
    for my $place (1 .. 4) { return $place if $applies[$place - 1]; }
    return 0;
}

# 01, Status, doubles, gaps; 02, 2.2: bit 3 or 4 with none of bits 0 to 2 names all three axes; 2.3
for my $status (0 .. 255) {
    my $named = $status & 7 || 7;
    my @fit = map { ($status & 0xC0) || (($status & 0x18) && ($named & (1 << $_))) ? 0 : 1 } 0 .. 2;
    my $flagged = grep { $status & (1 << $_) } 0 .. 2;
    printf "fit %d %d%d%d %d\n", $status, @fit, $flagged;
    printf "judged %d %d%d%d\n", $status, map { judgement($status, $_) } 0 .. 2;
}
for my $rate (0, 125, 250, 500, 1000, 2000) {
    for (1 .. 12) {
        my ($previous, $counter) = (random_byte(), random_byte());
        $counter = ($previous + (1 + random_byte() % 16) * 2000 / $rate) % 256 if $rate && $_ % 2;
        $counter = $previous if $_ == 12;
        my $samples = ($counter - $previous) % 256 || 256;
        my $answer = !$rate ? 0 : $samples % (2000 / $rate) ? "?" : $samples / (2000 / $rate) - 1;
        printf "gap %d 0 %d %d %s\n", $rate, $previous, $counter, $answer;
        printf "gap %d 1 %d %d 0\n", $rate, $previous, $counter;
    }
}

# 01, The text line: the line without its end, from the setup's nine values and the rest.
sub line {
    my ($setup, $ordinal, $counter, $latency, $missed, $readings, $statuses, $totals) = @_;
    my @fields = ($ordinal, $counter, $latency, $missed);
    for my $group (0 .. 2) {
        my $carried = $carries{$setup->[1]} =~ (("R", "A", "I")[$group]);
        my $kept = $carried && $setup->[3 + $group] == 3;
        push @fields, map { $carried ? $_ : "" } @{$readings}[3 * $group .. 3 * $group + 2], $statuses->[$group];
        push @fields, map { $kept && $_->[0] ? $_->[1] : "" } @{$totals}[3 * $group .. 3 * $group + 2];
    }
    return join ",", @fields;
}

sub write_case {
    my ($number, $room, $setup, $ordinal, $counter, $latency, $missed, $readings, $statuses, $totals) = @_;
    my $line = $number ? "" : line($setup, $ordinal, $counter, $latency, $missed, $readings, $statuses, $totals);
    printf "write %s\n", join " ", $number, @$setup, $ordinal, $counter, $latency, $missed, @$readings, @$statuses, (map { @$_ } @$totals), $room, $line;
}

my @none = map { [0, 0] } 1 .. 9;
my $example = [1000, 0x90, 0, 3, 0, 0, 21, 0, 0];
my @example_totals = ([1, 0], [1, 0], [1, 0], @none[3 .. 8]);
write_case(0, 400, $example, 1, 2, 0, 0, [8388600, (0) x 8], [0, 0, 0], \@example_totals);
write_case(0, 400, $example, 2, 4, 0, 0, [-8388600, (0) x 8], [0, 0, 0], [[1, 16], @example_totals[1 .. 8]]);
write_case(0, 400, $example, 2, 4, 0, "?", [-8388600, (0) x 8], [0, 0, 0], \@none);
my @refused = ([4, 1001, 0x90, 0, 3, 0, 0, 21, 0, 0], [5, 1000, 0x95, 0, 3, 0, 0, 21, 0, 0], [6, 1000, 0x90, 2, 3, 0, 0, 21, 0, 0], [7, 1000, 0x90, 0, 4, 0, 0, 21, 0, 0], [8, 1000, 0x90, 0, 3, 0, 0, 32, 0, 0], [9, 1000, 0x90, 0, 3, 1, 0, 21, 0, 0]);
for my $case (@refused) {
    my ($number, @setup) = @$case;
    write_case($number, 0, \@setup, 0, 0, 0, 0, [(8388608) x 9], [0, 0, 0], \@none);
}
write_case(13, 400, $example, 0, 0, 0, 0, [(0) x 9], [0, 0, 0], \@none);
write_case(13, 0, $example, 0, 0, 0, 0, [(0) x 9], [0, 0, 0], \@none);
for my $place (0 .. 8) {
    for my $reading (8388607, 8388608, 2147483647, -8388608, -8388609) {
        my @readings = (0) x 9;
        $readings[$place] = $reading;
        write_case($reading >= -8388608 && $reading <= 8388607 ? 0 : 13, 400, $example, 7, 0, 0, 0, \@readings, [0, 0, 0], \@none);
    }
    for my $total ("9007199254740992", "9007199254740993", "-9007199254740992", "-9007199254740993", "9223372036854775807", "-9223372036854775807") {
        my @totals = @none;
        $totals[$place] = [$place % 2, $total];
        write_case($total =~ /740992$/ ? 0 : 13, 400, [1000, 0x93, 0, 3, 3, 3, 21, 0, 0], 7, 0, 0, 0, [(0) x 9], [0, 0, 0], \@totals);
    }
}
for my $identifier (sort { $a <=> $b } keys %carries) {
    my (undef, @values) = datagram($identifier);
    my @units = map { $carries{$identifier} =~ $_ ? random_byte() % 2 ? 3 : random_byte() % 3 : 0 } "R", "A", "I";
    my $setup = [250, $identifier, 1, @units, 14, 0, 0];
    my @totals = map { [random_byte() % 2, (random_byte() - 128) * 65536 * random_byte() * 256 + random_byte()] } 1 .. 9;
    my @line = ($setup, 1 + random_byte() * 16777216, @values[12, 13], random_byte() % 3 ? random_byte() : "?", [@values[0 .. 8]], [@values[9 .. 11]], \@totals);
    my $room = length(line(@line)) + 1;
    write_case(0, 400, @line);
    write_case(0, $room, @line);
    write_case(14, $room - 1, @line);
    write_case(14, 0, @line);
}
