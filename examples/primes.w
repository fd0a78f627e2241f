% A web of twelve sections: a program that prints the first primes.
\def\title{PRIMES}

@* Printing primes. This program prints as many primes as its command line
asks for, ten on a line. It finds them by trial division, but divides only by
primes that it already knows, so it keeps them in a table.

The parts of the program stand in the order in which it is easiest to think
of them; \.{ctangle} puts them into the order that the compiler wants.
@^trial division@>

@c
@<Header files@>@;
@<Types@>@;
@<Functions@>@;
@#
int main(int argc, char *argv[])
{
  Table table;
  @<Read how many primes are wanted@>;
  @<Fill the table@>;
  @<Print the table@>;
  return 0;
}

@ Some sizes are fixed when the program is written. |LIMIT| is the largest
number of primes that it prints, and |LINE| says how many stand on a line.

@d LIMIT 1000 /* more than anyone reads */
@d LINE 10
@d is_last(i,n) ((i)+1==(n)||((i)+1)%LINE==0)

@ Only two headers of the library are needed.

@<Header files@>=
#include <stdio.h>
#include <stdlib.h>

@ A table holds the primes that were found, in ascending order, and how many
they are. The type is called |Table|, and its members are |count| and |prime|.

@<Types@>=
typedef struct table_of_primes {
  int count; /* how many are known, at most |LIMIT| */
  long prime[LIMIT]; /* the first |count| of them matter */
} Table;

@ The smallest table that the program fills holds the only even prime. What
its initialiser doesn't name is zero.

@<Functions@>=
static const Table first={.count=1,.prime={2}};

@* Finding the next prime. The candidates are odd, but for the first one. A
candidate |n| is a prime if no prime |p| of the table divides it as long as
|p*p<=n|; this is the inner loop of the program.
@.Trial division@>

@<Functions@>=
static int is_prime(const Table *t,long n)
{
  int i;
  for (i=0; i<t->count && t->prime[i]*t->prime[i]<=n; i++)
    if (n%t->prime[i]==0)
      return 0; /* |t->prime[i]| divides it */
  return 1;
}

@ The next prime behind the last one of the table, which isn't empty, is found
by trying one candidate after another. There always is one, as Euclid knew.
@:Euclid}{Euclid@>

@<Functions@>=
static long next_prime(const Table *t)
{
  long n=t->prime[t->count-1]+1;
  while (!is_prime(t,n))
    n++;
  return n;
}

@* The parts of |main|. The number of primes comes from the command line;
without a word there the program prints twenty-five of them, the primes below
one hundred. What isn't a number counts as zero.

@<Read how many primes are wanted@>=
int wanted=25;
if (argc>1)
  wanted=atoi(argv[1]);
@<Keep |wanted| within the table@>@;

@ Nobody gets more than |LIMIT| primes, and nobody fewer than none.

@<Keep |wanted| within the table@>=
if (wanted>LIMIT)
  wanted=LIMIT;
else if (wanted<0)
  wanted=0;

@ The table begins with the first prime, or stays empty if none is wanted, and
grows by one prime at a time.

@<Fill the table@>=
table=wanted>0?first:(Table){.count=0};
while (table.count<wanted) {
  table.prime[table.count]=next_prime(&table);
  table.count++;
}

@ In print a line ends behind each tenth prime, and behind the last. Compare
|@<Fill the table@>|, which decides how many there are.

@<Print the table@>=
{
  int i;
  for (i=0; i<table.count; i++)
    printf("%ld%c",table.prime[i],is_last(i,table.count)?'\n':' ');
}

@* Index. Here are the names that the program uses, with the sections in
which they stand; where a name is defined the number is underlined.
