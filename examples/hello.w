% What stands before the first section goes into the book as it is.
\def\title{HELLO}

@* Hello. This program greets everybody whom its command line names.
Without names |argc==1|, and then it greets the world.

@d WORLD "world"
@c
#include <stdio.h>
@<Functions@>@;

int main(int argc,char *argv[])
{
  int i; /* |argv[i]| is greeted next */
  if (argc==1)
    greet(WORLD);
  for (i=1; i<argc; i++)
    greet(argv[i]);
  return 0;
}

@ A greeting is one line on standard output.

@<Functions@>=
static void greet(const char *name)
{
  printf("Hello, %s!\n",name);
}

@* Index.
