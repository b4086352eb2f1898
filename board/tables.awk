# Reads tables that `dvg lay --table` wrote, and writes them with lists of where they stand, so that
# a program finds table Y at tables_low,y and tables_high,y. Y reaches 256 tables: where there are
# more, standard error says so.
{ print }

/^[^ ].*:$/ { name[count++] = substr($0, 1, length($0) - 1) }

END {
    if (count > 256) print "tables.awk: " count " tables, and Y reaches the first 256" | "cat 1>&2"
    print "tables_low:"
    for (i = 0; i < count; i++) print "        .byte <" name[i]
    print "tables_high:"
    for (i = 0; i < count; i++) print "        .byte >" name[i]
}
