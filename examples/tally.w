% A program in sections, with an included file (tally-table.w) and a change file (tally.ch).
\def\title{TALLY}

@* Counting words. This program tells which words a text uses most. It reads
the files that its command line names, or standard input where it names none,
and prints a line for each of the commonest words: how often it stands in the
text, and the word. So \.{tally -n 3 poem} may print
$$\vbox{\halign{\hfil\tt#&\quad\tt#\hfil\cr
12&the\cr 9&of\cr 7&rose\cr}}$$
and where two words are equally common, the one that comes first in the
alphabet is printed first.

The status of the program is zero if all went well, one if a file could not be
read, and two if it was called wrongly or had no memory.

@c
@<Header files@>@;
@h
@<Types@>@;
@<Functions@>@;
@#
int main(int argc,char *argv[])
{
  @<Variables of |main|@>@;
  @<Read the options@>@;
  @<Count the words of all files@>@;
  @<Print the commonest words@>@;
  free_table(&words);
  return status;
}

@ Some sizes are fixed when the program is written. Longer words are cut, and
the rest of such a word counts as a word of its own. The types |Table| and
|Entry| are defined further below, with the functions that serve them.

@s Table int
@s Entry int
@d DEFAULT_LINES 10 /* so many words are printed, if the command line says nothing */
@d LONGEST_WORD 100 /* in bytes */

@ @<Header files@>=
#include <ctype.h>
#include <stdio.h>
#include <stdlib.h>
#include <string.h>

@ Everything that |main| needs to know stands here in one place.

@<Variables of |main|@>=
Table words; /* all words so far */
long lines=DEFAULT_LINES; /* how many words are wanted */
int status=EXIT_SUCCESS;
int next=1; /* |argv[next]| is the next word of the command line */
init_table(&words);

@* Reading. What is a word? Here it is a longest sequence of letters. An
apostrophe between two letters belongs to the word, so that {\it don't\/} is
one word. Bytes of 128 and above count as letters; thus a text in \.{UTF-8}
keeps its words whole, whatever its language is.
@^words, what they are@>
@^UTF-8@>

@d is_letter(c) (isalpha(c) || (c)>=128)

@<Functions@>=
@<Table functions@>@;
@#
static int read_word(FILE *file,char *word)
{
  int length=0;
  int c=getc(file);
  while (c!=EOF && !is_letter(c))
    c=getc(file); /* what stands between two words is skipped */
  @<Take letters into |word|, beginning with |c|@>@;
  word[length]='\0';
  return length; /* zero at the end of the file */
}

@ When this loop ends, |c| is a byte that doesn't belong to the word, and it is
given back if the word was too long. An apostrophe is taken only if a letter
stands behind it; if not, nothing is lost, since no word begins with it.

@<Take letters into |word|, beginning with |c|@>=
while (c!=EOF && length<LONGEST_WORD) {
  if (is_letter(c))
    word[length++]=fold(c);
  else if (c=='\'' && length<LONGEST_WORD-1)
    @<Take the apostrophe, or |break|@>@;
  else
    break;
  c=getc(file);
}
if (length==LONGEST_WORD)
  ungetc(c,file);

@ @<Take the apostrophe...@>=
{
  c=getc(file);
  if (c==EOF || !is_letter(c))
    break;
  word[length++]='\'';
  word[length++]=fold(c);
}

@ Capital letters count as small ones, so that the first word of a sentence is
not told apart from the same word elsewhere. Since |fold| is used above, it is
a macro; a change file may give it another meaning.
@^changes, a place for@>

@d fold(c) ((char)tolower(c))

@ The words of one file are counted by |count_file|. A file that can't be
opened is no reason to give up; the others are read all the same.
@.tally: can't read...@>

@<Functions@>=
static int count_file(Table *table,const char *name)
{
  char word[LONGEST_WORD+1];
  FILE *file=name==NULL ? stdin : fopen(name,"r");
  if (file==NULL) {
    fprintf(stderr,"tally: can't read %s\n",name);
    return 1;
  }
  while (read_word(file,word)>0)
    find_or_add(table,word)->count++;
  if (file!=stdin)
    fclose(file);
  return 0;
}

@ @<Count the words of all files@>=
if (next==argc)
  status=count_file(&words,NULL);
while (next<argc)
  status|=count_file(&words,argv[next++]);

@i tally-table.w

@* The command line. There is but one option, \.{-n}, and a number has to
follow. Whoever calls the program in another way is told how it is done.
@.tally: usage...@>

@<Read the options@>=
if (next<argc && strcmp(argv[next],"-n")==0) {
  char *end; /* where the number ends */
  if (next+1<argc)
    lines=strtol(argv[next+1],&end,10);
  if (next+1==argc || *argv[next+1]=='\0' || *end!='\0' || lines<0) {
    fputs("tally: usage: tally [-n number] [file..]\n",stderr);
    return 2;
  }
  next+=2;
}

@ The table is put in order when all words are known. Afterwards its first
entries are the commonest words, and nothing is left to do but to print them.

@<Print the commonest words@>=
sort_table(&words);
{
  long i;
  for (i=0; i<lines && i<words.size; i++)
    printf("%7ld %s\n",words.entry[i].count,words.entry[i].word);
}

@* Index. Identifiers are in italics, reserved words in bold; underlined are
the sections in which something is defined.
