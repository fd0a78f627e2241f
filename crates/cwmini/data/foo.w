@ @c int i;
@ @c i=i+1;
