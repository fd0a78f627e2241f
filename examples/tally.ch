Changes of tally.w for texts in German, where a capital letter tells a noun.
What stands here, outside of the groups, is ignored.

@x
@ Capital letters count as small ones, so that the first word of a sentence is
not told apart from the same word elsewhere. Since |fold| is used above, it is
a macro; a change file may give it another meaning.
@^changes, a place for@>

@d fold(c) ((char)tolower(c))
@y
@ Capital letters stay, since in German {\it Arm\/} and {\it arm\/} are two
words. The price is that the first word of a sentence may be counted apart.
@^changes, a place for@>

@d fold(c) ((char)(c))
@z

@x
    fputs("tally: usage: tally [-n number] [file..]\n",stderr);
@y
    fputs("tally: Aufruf: tally [-n Zahl] [Datei..]\n",stderr);
@z
