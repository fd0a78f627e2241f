% A program in C of 2023, with what that has and older C hadn't: attributes, fixed types of enumerations, binary constants.
\def\title{UTF8}

@* Checking UTF-8. This program tells whether files are texts in \.{UTF-8}. It
reads the files that its command line names, or standard input where it names
none, and prints a line for each: how many characters the text has and how many
bytes, or which byte is the first that doesn't belong there, and why.
So \.{utf8 poem letter} may print
$$\vbox{\halign{\tt#\hfil\cr
poem: 412 characters in 430 bytes\cr
letter: byte 17: a byte that only continues a character\cr}}$$

The status of the program is zero if all files are such texts, one if one isn't,
and two if one couldn't be read.

@c
#include <stdint.h>
#include <stdio.h>
#include <stdlib.h>
#include <string.h>
@#
@<Types@>@;
@<Constants@>@;
@<Functions@>@;
@#
int main(int argc,char *argv[])
{
  int worst=EXIT_SUCCESS;
  if (argc<2) return report("standard input",stdin);
  for (int i=1; i<argc; i++) {
    FILE *file=fopen(argv[i],"rb");
    const int status=file==NULL ? unreadable(argv[i]) : report(argv[i],file);
    if (file!=NULL) fclose(file);
    if (status>worst) worst=status;
  }
  return worst;
}

@* Characters. A character takes one to four bytes. Its first byte tells how
many there are: it begins with as many ones as there are bytes and then a zero,
where a character of one byte begins with the zero. Each later byte begins with
\.{10} and has six more bits of the number.

The numbers of characters go up to |greatest|. Those between |first_surrogate|
and |last_surrogate| are no characters: in pairs they stand for greater numbers
in another encoding.
@^surrogates@>

@<Constants@>=
constexpr uint32_t greatest=0x10'FFFF;
constexpr uint32_t first_surrogate=0xD800;
constexpr uint32_t last_surrogate=0xDFFF;
constexpr size_t buffer_size=65'536;
constexpr int failed=2; /* the status where a file can't be read */
static const uint8_t byte_order_mark[]=u8"\uFEFF";

@ A row of the table has the bits with which a first byte begins, and which bits
these are; how many bytes follow; and the least number that needs so many. A
smaller number in so many bytes is a fault, since each character has only one
form.
@^overlong forms@>

@<Types@>=
struct lead {
  uint8_t mask,bits; /* a byte |b| is of this kind if |(b&mask)==bits| */
  uint8_t followers;
  uint32_t least;
};

@ @<Constants@>=
static const struct lead leads[]={@t\1@>@/
  {.mask=0b1000'0000,.bits=0b0000'0000,.followers=0,.least=0},@/
  {.mask=0b1110'0000,.bits=0b1100'0000,.followers=1,.least=0x80},@/
  {.mask=0b1111'0000,.bits=0b1110'0000,.followers=2,.least=0x800},@/
  {.mask=0b1111'1000,.bits=0b1111'0000,.followers=3,.least=0x1'0000}@t\2@>@/
};
static_assert(sizeof leads/sizeof leads[0]==4);

@ What may be wrong with a text has names, and for each of them there are words
that explain it. The fault |none| stands where nothing is wrong.

@<Types@>=
enum fault : uint8_t {
  none,@/
  stray, /* a later byte without a first one */
  unknown, /* no character begins with such a byte */
  cut, /* fewer bytes follow than should */
  ended, /* the text is over before the character is */
  overlong, /* fewer bytes would do */
  surrogate, /* half of a pair */
  too_great /* no character has such a number */
};

@ @<Constants@>=
static const char *const meanings[]={@t\1@>@/
  [none]="no fault",@/
  [stray]="a byte that only continues a character",@/
  [unknown]="a byte with which no character begins",@/
  [cut]="a character that is cut short",@/
  [ended]="the end of the text, within a character",@/
  [overlong]="a character with more bytes than it needs",@/
  [surrogate]="half of a surrogate pair",@/
  [too_great]="a number that no character has"@t\2@>@/
};

@* Reading bytes. A text is taken in by a machine that gets byte after byte.
Between two bytes it remembers how many bytes are still missing of the
character that was begun, and what is known of its number.

@<Types@>=
struct machine {
  const struct lead *row; /* the row of the character that was begun, or |NULL| */
  uint8_t missing; /* how many of its bytes are still to come */
  uint32_t number; /* its bits so far */
  uint64_t characters,bytes; /* that were taken without a fault */
  bool has_mark; /* does the text begin with a byte order mark? */
};

@ The table is short, so it is looked through from its beginning.

@<Functions@>=
[[nodiscard]] static const struct lead *row_of(uint8_t byte)
{
  for (size_t i=0; i<sizeof leads/sizeof leads[0]; i++)
    if ((byte&leads[i].mask)==leads[i].bits) return &leads[i];
  return NULL;
}

@ When no byte of a character is missing, its number is complete and can be
judged.

@<Functions@>=
[[nodiscard]] static enum fault judge(const struct machine *state)
{
  const typeof(state->number) number=state->number;
  if (number<state->row->least) return overlong;
  if (number>greatest) return too_great;
  if (number>=first_surrogate && number<=last_surrogate) return surrogate;
  return none;
}

@ A byte either begins a character or continues one.

@<Functions@>=
[[nodiscard]] static enum fault take(struct machine *state,uint8_t byte)
{
  const bool continues=(byte&0b1100'0000)==0b1000'0000;
  if (state->missing==0) {
    if (continues) return stray;
    @<Begin a character with |byte|@>@;
  } else {
    if (!continues) return cut;
    state->number=state->number<<6|(byte&0b0011'1111);
    state->missing--;
  }
  if (state->missing==0) {
    const enum fault found=judge(state);
    if (found!=none) return found;
    state->characters++;
  }
  state->bytes++;
  return none;
}

@ @<Begin a character with |byte|@>=
state->row=row_of(byte);
if (state->row==NULL) return unknown;
state->number=byte&(uint8_t)~state->row->mask;
state->missing=state->row->followers;

@* Whole files. Some programs put a character before a text that tells in which
order the bytes of a number stand. In \.{UTF-8} it tells nothing, but it is no
fault.

@<Functions@>=
[[nodiscard]] static bool begins_with_mark(const uint8_t *bytes,size_t count)
{
  constexpr size_t length=sizeof byte_order_mark-1;
  return count>=length && memcmp(bytes,byte_order_mark,length)==0;
}

@ A file is read in pieces of |buffer_size| bytes. Where a text ends within a
character, that is a fault of the text.

@<Functions@>=
[[nodiscard]] static enum fault take_all(FILE *file,struct machine *state)
{
  alignas(64) static uint8_t buffer[buffer_size];
  for (size_t count; (count=fread(buffer,1,sizeof buffer,file))>0;) {
    if (state->bytes==0) state->has_mark=begins_with_mark(buffer,count);
    for (size_t i=0; i<count; i++) {
      const enum fault found=take(state,buffer[i]);
      if (found!=none) return found;
    }
  }
  return state->missing>0 ? ended : none;
}

@ The result is told in one line, and decides the status.

@<Functions@>=
static int unreadable(const char *name)
{
  fprintf(stderr,"%s can't be read\n",name);
  return failed;
}
@#
static int report(const char *name,FILE *file)
{
  struct machine state={};
  const enum fault found=take_all(file,&state);
  if (ferror(file)) return unreadable(name);
  if (found!=none) {
    printf("%s: byte %ju: %s\n",name,(uintmax_t)state.bytes+1,meanings[found]);
    return EXIT_FAILURE;
  }
  printf("%s: %ju characters in %ju bytes%s\n",name,
    (uintmax_t)state.characters,(uintmax_t)state.bytes,
    state.has_mark ? ", with a byte order mark" : "");
  return EXIT_SUCCESS;
}

@* Index.
