#!/usr/bin/env perl
# Which definitions the contract of `run` rests on, computed from the sources: from the names in its
# clauses and its signature, by `use`, from definition to definition, with the types of the code
# that a definition speaks of. Without words it prints a line CRATE FILE NAME LINES for each
# definition of crates/*/specs that is reached; with `CRATE FILE NAME` it begins at that definition
# instead, and with `why` before these it prints a way that leads there from `run`.
# A name that stands in a definition counts, unless it is that of an argument. What the toolchain's
# own definitions say is not followed.
use strict;
use warnings;
use utf8;
use open qw(:std :encoding(UTF-8));

my $word = qr/[A-Za-z_][A-Za-z0-9_']*/;

sub text_of {
    my ($file) = @_;
    open(my $in, '<:encoding(UTF-8)', $file) or die "$file: $!\n";
    local $/;
    return <$in>;
}

# --- the files of specs/: their names, and the text of each definition
my %file_of;     # "CRATE FILE" -> the file
my %text;        # "CRATE FILE NAME" -> what the definition says
my %names;       # "CRATE FILE" -> name or constructor -> "CRATE FILE NAME"
my %uses;        # "CRATE FILE" -> name -> [module path, name], and name -> [module path]

# A line that brings names: what each of them is, by its own name here.
sub brought {
    my ($path, $list, $as) = @_;
    my @parts = split /\./, $path;
    return {} if shift @parts ne 'Rattle';
    my %found;
    if (defined $list) {
        for my $one (split /\s*,\s*/, $list) {
            my ($name, $here) = $one =~ /^($word)(?: as ($word))?$/ or next;
            $found{ $here // $name } = [ [@parts], $name ];
        }
    } elsif (defined $as) {
        $found{$as} = [ [@parts] ];
    }
    return \%found;
}

sub read_specs {
    my ($crate, $module, $file) = @_;
    my $key = "$crate $module";
    $file_of{$key} = $file;
    my ($name, $kind, @around) = ('', '');
    for my $line (split /\n/, text_of($file)) {
        $line =~ s/"(?:[^"\\]|\\.)*"/""/g;
        $line =~ s/(?:^|\s)--.*//;
        next if $line !~ /\S/;
        if ($line =~ /^use ([\w.]+?)(?:\.\{(.*)\})?(?: as ($word))?$/) {
            $uses{$key} = { %{ $uses{$key} // {} }, %{ brought($1, $2, $3) } };
            next;
        }
        next if $line =~ /^pub mod /;
        my ($depth) = $line =~ /^( *)/;
        pop @around while @around && length $depth <= $around[-1][0];
        if ($line =~ /^ *module _ (.*) where$/) {
            push @around, [ length $depth, $1 ];
            $name = '';
            next;
        }
        if ($line =~ /^ *(?:abbrev |unfoldable )?mutual$/) {
            push @around, [ length $depth, '' ];
            $name = '';
            next;
        }
        if (length $depth == (@around ? $around[-1][0] + 2 : 0)) {
            if ($line =~ /^ *(?:pub )?(record|data) ($word)/) {
                ($kind, $name) = ($1, $2);
            } elsif ($line =~ /^ *(?:abbrev |unfoldable )?(?:pub )?($word)\s*:/) {
                ($kind, $name) = ('', $1);
            }
        } elsif ($kind eq 'data' && $line =~ /^\s+($word)\s*:/) {
            $names{$key}{$1} = "$key $name";
        }
        die "$file: '$line' belongs to no definition\n" if $name eq '';
        $names{$key}{$name} = "$key $name";
        $text{"$key $name"} //= join('', map { "$_->[1]\n" } @around);
        $text{"$key $name"} .= "$line\n";
    }
}

for my $file (glob('crates/*/specs/*.antt crates/*/specs/*/*.antt crates/*/specs/*/*/*.antt')) {
    my ($crate, $module) = $file =~ m{^crates/([^/]+)/specs/(.*)\.antt$};
    next if $module eq 'Lib';
    read_specs($crate, $module, $file);
}

# --- the files of src/: their types and traits, and what they bring
my (%source, %ghosts, %imports, %declares);
for my $file (split /\n/, `find crates/*/src -name '*.rt'`) {
    my ($crate, $path) = $file =~ m{^crates/([^/]+)/src/(.*)\.rt$};
    my $key = "$crate $path";
    my $whole = text_of($file);
    $whole =~ s{//[^\n]*}{}g;
    $source{$key} = $whole;
    while ($whole =~ /ghost use ([\w.]+?)(?:\.\{([^}]*)\})?(?: as ($word))?;/g) {
        $ghosts{$key} = { %{ $ghosts{$key} // {} }, %{ brought($1, $2, $3) } };
    }
    while ($whole =~ /^use ([\w:]+?)(?:::\{([^}]*)\})?;/mg) {
        my ($from, $list) = ($1, $2);
        $from =~ s/::($word)$// and $list = $1 if !defined $list;
        my $of = $from =~ s/^crate\b// ? $crate : $from =~ s/^($word)// ? $1 : next;
        $imports{$key}{$_} = $of for split /[\s,]+/, $list;
    }
    while ($whole =~ /^(?:pub(?:\([a-z]+\))? )?(struct|enum|trait) ($word)/mg) {
        push @{ $declares{$crate}{$2} }, $key;
    }
}

# The text from a place on to the brace that closes what opens there, or to a semicolon before.
sub item_at {
    my ($whole, $from) = @_;
    my $depth = 0;
    pos($whole) = $from;
    while ($whole =~ /([{};])/g) {
        return substr($whole, $from, pos($whole) - $from) if $1 eq ';' && $depth == 0;
        $depth += $1 eq '{' ? 1 : $1 eq '}' ? -1 : 0;
        return substr($whole, $from, pos($whole) - $from) if $1 eq '}' && $depth == 0;
    }
    return substr($whole, $from);
}

# --- what a definition, or a type of the code, leads to
my (%seen, %from, @queue);

sub reach {
    my ($what, $by) = @_;
    return if !defined $what || $seen{$what}++;
    $from{$what} = $by;
    push @queue, $what;
}

# What a path below `Rattle`, and a name in it, are.
sub meant {
    my ($parts, $name) = @_;
    my ($crate, $specs, @path) = @$parts;
    return if $crate eq 'std' || !-d "crates/$crate" || ($specs // '') ne 'specs';
    if (@path && $path[0] eq 'declared') {
        shift @path;
        return if grep { $_ eq 'TheConstants' } @path;
        my @down;
        push @down, shift @path while @path && $path[0] =~ /^[a-z]/;
        my $type = @path ? $path[0] : $name;
        my $key = "$crate " . join('/', @down);
        return defined $source{$key} ? "type $key $type" : die "no source of @$parts\n";
    }
    my $key = "$crate " . join('/', @path);
    die "no definitions in @$parts\n" if !defined $file_of{$key};
    return if !defined $name;
    return $names{$key}{$name} // die "no $name in @$parts\n";
}

# The names that an equation or a binder gives its arguments; they are no definitions.
sub bound_in {
    my ($piece, $name, $is_constructor) = @_;
    my %bound;
    for my $list ($piece =~ /λ\s*([^.]*)\./g) {
        $bound{$_} = 1 for split ' ', $list;
    }
    for my $list ($piece =~ /[({]((?:$word\s+)*$word)\s*:/g) {
        $bound{$_} = 1 for split ' ', $list;
    }
    if ($piece =~ /^\s*\Q$name\E((?:\s[^=:]*)?)\s=\s/) {
        $is_constructor->($_) or $bound{$_} = 1 for $1 =~ /(?<![.\w])($word)(?![.\w])/g;
    }
    return \%bound;
}

sub follow {
    my ($key, $what, $piece, $bring, $own) = @_;
    $piece =~ s/([{;]\s*)$word(\s*=[^=])/$1$2/g;
    my $constructor = sub {
        my ($name) = @_;
        return 1 if $name =~ /^[A-Z]/ || $own && exists $names{$key}{$name}
            && $names{$key}{$name} ne "$key $name";
        my $found = $bring->{$name} or return 0;
        my ($parts, $there) = @$found;
        return 1 if grep { $_ eq 'TheVariants' } @$parts;
        return 0 if !defined $there;
        my $of = join(' ', $parts->[0], join('/', @{$parts}[ 2 .. $#$parts ]));
        return exists $names{$of}{$there} && $names{$of}{$there} ne "$of $there";
    };
    my ($name) = $what =~ /(\S+)$/;
    my ($room) = $piece =~ /^( *)(?:abbrev |unfoldable |pub |\Q$name\E\s)/m;
    $room //= '';
    for my $equation (split /\n(?=$room\Q$name\E\s)/, $piece) {
        my $bound = bound_in($equation, $name, $constructor);
        while ($equation =~ /(?<![\w.'])($word)((?:\.$word)*)/g) {
            my ($name, $rest) = ($1, $2);
            next if $bound->{$name};
            if ($own && exists $names{$key}{$name}) {
                reach($names{$key}{$name}, $what);
            } elsif (my $found = $bring->{$name}) {
                my ($parts, $there) = @$found;
                my ($next) = $rest =~ /^\.($word)/;
                $there //= $next;
                my $meant = meant($parts, $there);
                reach($meant, $what);
            }
        }
    }
}

# A type or trait of the code, by the names in its text.
sub follow_types {
    my ($key, $what, $piece) = @_;
    my ($crate) = $key =~ /^(\S+)/;
    while ($piece =~ /(?<![\w.'])(?:($word)::)?([A-Z]\w*)/g) {
        my ($of, $name) = ($1, $2);
        $of = $imports{$key}{$name} // ($declares{$crate}{$name} ? $crate : undef)
            if !defined $of || !$declares{$of};
        next if !defined $of || !$declares{$of}{$name};
        my @where = @{ $declares{$of}{$name} };
        my ($near) = grep { $_ eq $key } @where;
        reach("type $_ $name", $what) for $near // @where;
    }
}

sub follow_type {
    my ($what) = @_;
    my ($key, $name) = $what =~ /^type (\S+ \S+) (\S+)$/;
    my $whole = $source{$key};
    if ($whole =~ /^impl(?:<[^>]*>)? Model for $name\b/m) {
        my $model = item_at($whole, $-[0]);
        my ($value) = $model =~ /ghost Value = (\{(?:[^{}]|\{[^{}]*\})*\})/
            or die "no value of $what\n";
        follow($key, $what, $value, $ghosts{$key} // {}, 0);
        return;
    }
    $whole =~ /^(?:pub(?:\([a-z]+\))? )?(struct|enum|trait) $name\b/m or return;
    my $item = item_at($whole, $-[0]);
    follow_types($key, $what, $item);
    follow($key, $what, $item, $ghosts{$key} // {}, 0) if $1 eq 'trait';
}

# --- from where
my @ask = @ARGV;
my $why = @ask && $ask[0] eq 'why' ? shift @ask : '';
if (@ask && !$why) {
    my $first = join ' ', @ask;
    die "no definition $first\n" if !defined $text{$first};
    reach($first, '');
} else {
    my $key = 'geofeed_cmd command';
    my ($contract) = $source{$key} =~ /^(pub fn run<.*?)^\{/ms or die "no run\n";
    follow($key, 'run', $contract, $ghosts{$key}, 0);
    follow_types($key, 'run', $contract);
}
while (@queue) {
    my $what = shift @queue;
    if ($what =~ /^type /) {
        follow_type($what);
    } else {
        my ($key) = $what =~ /^(\S+ \S+) /;
        follow($key, $what, $text{$what}, $uses{$key} // {}, 1);
    }
}

if ($why) {
    for (my $what = join ' ', @ask; $what; $what = $from{$what}) {
        print "$what\n";
    }
} else {
    for my $what (sort grep { !/^type / } keys %seen) {
        my $lines = () = $text{$what} =~ /\S[^\n]*\n/g;
        print "$what $lines\n";
    }
}
