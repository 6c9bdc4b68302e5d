# Builds, walks and sums a list of 100,000 nodes, ten times.
for (1 .. 10) {
    my $list;
    my $i = 0;
    while ($i < 100000) {
        $i++;
        $list = [$i, $list];
    }
    my $total = 0;
    for (my $node = $list; defined $node; $node = $node->[1]) {
        $total += $node->[0];
    }
    print "$total\n";
    # Taken apart node by node: Perl would free the list by a recursion as deep as the list is long.
    while (defined $list) {
        my $next = $list->[1];
        $list->[1] = undef;
        $list = $next;
    }
}
