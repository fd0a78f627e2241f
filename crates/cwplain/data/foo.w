% limbo
@ @c a b;
