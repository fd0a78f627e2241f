@* The table. Each word that was met has an entry: its text and how often it
was met. The entries stand in one array, in the order in which the words came,
and the array is doubled when it is full.

To find a word quickly there is a second array, the {\it index}. Its length is
a power of two, at least twice the number of entries. Each of its places holds
the number of an entry, or |NONE|. A word is looked for from the place that its
bytes decide, place by place, until it is found or a place with |NONE| is met.
@^hashing@>

@d NONE (-1)

@<Types@>=
typedef struct entry_struct {
  char *word; /* ends with a zero byte */
  long count;
} Entry;
typedef struct table_struct {
  Entry *entry; /* the first |size| of |room| entries are in use */
  long size;
  long room;
  long *index; /* it has |2*room| places */
} Table;

@ A table begins with room for a few entries.

@d FIRST_ROOM 64 /* a power of two */

@<Table functions@>=
@<Memory functions@>@;
@#
static void init_table(Table *table)
{
  table->size=0;
  table->room=FIRST_ROOM;
  table->entry=take_memory(FIRST_ROOM*sizeof(Entry));
  table->index=new_index(2*FIRST_ROOM);
}
@#
static void free_table(Table *table)
{
  long i;
  for (i=0; i<table->size; i++)
    free(table->entry[i].word);
  free(table->entry);
  free(table->index);
}

@ A program that counts words can't do anything useful without memory.
@.tally: no memory@>

@<Memory functions@>=
static void *take_memory(size_t bytes)
{
  void *memory=malloc(bytes);
  if (memory==NULL) {
    fputs("tally: no memory\n",stderr);
    exit(2);
  }
  return memory;
}
@#
static long *new_index(long places)
{
  long *index=take_memory((size_t)places*sizeof(long));
  long i;
  for (i=0; i<places; i++)
    index[i]=NONE;
  return index;
}

@ Where the search for a word begins is decided by a number that is made of all
its bytes. The multiplier is the one that Fowler, Noll, and Vo recommend.
@^Fowler, Glenn S.@>
@^Noll, Landon Curt@>
@^Vo, Kiem-Phong@>

@<Table functions@>=
static long first_place(const Table *table,const char *word)
{
  unsigned long number=2166136261UL;
  for (; *word!='\0'; word++)
    number=((number^(unsigned char)*word)*16777619UL)&0xffffffffUL;
  return (long)(number&(unsigned long)(2*table->room-1));
}

@ The function |place_of| gives the place of the index that holds the number of
the word's entry. If there is none, it gives the place with |NONE| where the
number would have to stand. Since at least half of the places are free, the
loop ends.

@<Table functions@>=
static long *place_of(const Table *table,const char *word)
{
  long place=first_place(table,word);
  while (table->index[place]!=NONE &&
      strcmp(table->entry[table->index[place]].word,word)!=0)
    place=(place+1)&(2*table->room-1);
  return &table->index[place];
}

@ A new word is copied, and it has been met zero times so far. The table grows
first if it is full, and then the place is looked for again.

@<Table functions@>=
@<Make |table| twice as large@>@;
@#
static Entry *find_or_add(Table *table,const char *word)
{
  long *place=place_of(table,word);
  Entry *entry;
  if (*place!=NONE)
    return &table->entry[*place];
  if (table->size==table->room) {
    grow(table);
    place=place_of(table,word);
  }
  *place=table->size;
  entry=&table->entry[table->size++];
  entry->word=strcpy(take_memory(strlen(word)+1),word);
  entry->count=0;
  return entry;
}

@ All numbers have to be put into the new index, since twice as many places
decide otherwise where a word is looked for.

@<Make |table| twice as large@>=
static void grow(Table *table)
{
  Entry *old=table->entry;
  long i;
  table->entry=take_memory(2*(size_t)table->room*sizeof(Entry));
  memcpy(table->entry,old,(size_t)table->size*sizeof(Entry));
  free(old);
  table->room*=2;
  free(table->index);
  table->index=new_index(2*table->room);
  for (i=0; i<table->size; i++)
    *place_of(table,table->entry[i].word)=i;
}

@ At the end the entries are sorted. The index is of no use any more, and
|sort_table| leaves it as it is.

@<Table functions@>=
static int commoner(const void *left,const void *right)
{
  const Entry *a=left;
  const Entry *b=right;
  if (a->count!=b->count)
    return a->count>b->count ? -1 : 1;
  return strcmp(a->word,b->word);
}
@#
static void sort_table(Table *table)
{
  qsort(table->entry,(size_t)table->size,sizeof(Entry),commoner);
}
