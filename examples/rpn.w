% A program as C is often written: a table of structures with pointers to functions, tags and variables of one name, attributes behind macros, and
% macros of statements.
\def\title{RPN}

@* A calculator. This program computes the numbers that its command line asks
for, in the notation in which an operator stands behind its operands. So
\.{rpn 3 4 + 2 /} prints \.{3.5}, and needs neither parentheses nor a rule of
precedence. With no words on its command line it does the same for each line of
standard input.

A number goes on top of a stack. An operator takes its operands from there, the
last one first, and puts its result in their place. What is on the stack when
the words are over is printed, from the bottom to the top. The word \.{help}
lists the operators.

The status of the program is zero, or one if a word had no meaning or came too
early; then the rest of the words, or of the line, is left out.

@c
#include <stdarg.h>
#include <stdio.h>
#include <stdlib.h>
#include <string.h>
@#
@<Macros@>@;
@<Types@>@;
@<Declarations@>@;
@<Functions@>@;
@#
int main(int argc,char *argv[])
{
  if (argc<2) return each_line(stdin);
  return compute(argv+1)==fine ? EXIT_SUCCESS : EXIT_FAILURE;
}

@ The stack has room for as many numbers as anybody wants to keep in mind. Its
tag is also the name of each variable that holds a stack or points to one, as
in much C. In this book the tag is bold and the variable is in italics.

@<Types@>=
struct stack {
  double value[ROOM];
  size_t depth; /* how many of them are in use */
};

@ What may become of a word is told by a result.

@<Types@>=
enum result {
  fine,@/
  unknown, /* neither a number nor an operator */
  too_few, /* operands are missing */
  no_room, /* the stack is full */
  by_zero /* there is no quotient */
};

@ Each result but the first is also told in words.

@<Declarations@>=
static const char *const messages[]={@t\1@>@/
  [unknown]="I don't know this word",@/
  [too_few]="there are too few numbers for it",@/
  [no_room]="there is no room for so many numbers",@/
  [by_zero]="nothing can be divided by zero"@t\2@>@/
};

@ Some compilers can be told more of a function than its type: that its first
argument is a format, for example. All others see nothing of it.
@^attributes@>

@<Macros@>=
#ifdef __GNUC__
#define FORMAT __attribute__((format(printf,1,2)))
#define UNUSED __attribute__((unused))
#else
#define FORMAT /* it is checked by no compiler */
#define UNUSED
#endif
@#
#define ROOM 100

@* Operators. An operator has a name and a function, which does its work on a
stack. How many operands it takes and how many results it leaves stands beside
them, so that the function needn't look whether there are as many and whether
there is room. A last row without a name ends the table.

@<Types@>=
typedef enum result (*action)(struct stack *stack);
@#
struct operator {
  const char *name;
  size_t takes,leaves;
  action apply;
  const char *meaning;
};

@ Here they are.

@<Functions@>=
static const struct operator operators[]={@t\1@>@/
  {"+",2,1,add,"the sum of the last two numbers"},@/
  {"-",2,1,subtract,"their difference"},@/
  {"*",2,1,multiply,"their product"},@/
  {"/",2,1,divide,"their quotient"},@/
  {"max",2,1,greater,"the greater one"},@/
  {"dup",1,2,twice,"the last number, twice"},@/
  {"swap",2,2,swap,"the last two numbers, in the other order"},@/
  {"sum",0,1,sum,"the sum of all numbers"},@/
  {"help",0,0,help,"this list"},@/
  {}@t\2@>@/
};

@ Two macros get at the top of the stack, and two more write most of the
functions: each takes two operands, |a| and |b|, and leaves one number. What
isn't computed by an expression alone has a function of its own.

@<Macros@>=
#define PUSH(x) stack->value[stack->depth++]=(x)
#define POP() stack->value[--stack->depth]
#define OPERATOR(name) static enum result name(struct stack *stack)
#define BINARY(name,number) OPERATOR(name) { \
  double b=POP(); \
  double a=POP(); \
  PUSH(number); \
  return fine; \
}

@ The table names the functions, and \.{help} looks at the table. So the
functions are declared first.

@<Declarations@>=
OPERATOR(add);
OPERATOR(subtract);
OPERATOR(multiply);
OPERATOR(greater);
OPERATOR(divide);
OPERATOR(twice);
OPERATOR(swap);
OPERATOR(sum);
OPERATOR(help);

@ Four of them are a line each.

@<Functions@>=
BINARY(add,a+b)@;
BINARY(subtract,a-b)@;
BINARY(multiply,a*b)@;
BINARY(greater,a>b ? a : b)@;

@ A quotient isn't computed by |BINARY|, since there may be none.

@<Functions@>=
OPERATOR(divide)
{
  double b=POP();
  if (b==0) return by_zero;
  stack->value[stack->depth-1]/=b;
  return fine;
}

@ Two operators leave more than one number.

@<Functions@>=
OPERATOR(twice)
{
  double a=POP();
  PUSH(a); PUSH(a);
  return fine;
}
@#
OPERATOR(swap)
{
  double b=POP();
  double a=POP();
  PUSH(b); PUSH(a);
  return fine;
}

@ The sum takes all numbers, however many there are.

@<Functions@>=
OPERATOR(sum)
{
  double total=0;
  while (stack->depth>0) total+=POP();
  PUSH(total);
  return fine;
}

@ The table is short, so it is looked through from its beginning. Where
|EACH_OPERATOR| stands, a loop begins.

@<Macros@>=
#define EACH_OPERATOR(o) for (const struct operator *o=operators; o->name!=NULL; o++)

@ An operator is found by its name.

@<Functions@>=
static const struct operator *find(const char *word)
{
  EACH_OPERATOR(o)
    if (strcmp(o->name,word)==0) return o;
  return NULL;
}

@ The list of operators doesn't look at the stack.

@<Functions@>=
static enum result help(UNUSED struct stack *stack)
{
  EACH_OPERATOR(o)
    printf("%-5s %s\n",o->name,o->meaning);
  return fine;
}

@* Words. A word that names an operator is that operator, and any other has to
be a number.

@<Functions@>=
static enum result take(struct stack *stack,const char *word)
{
  const struct operator *operator=find(word);
  if (operator!=NULL) {
    if (stack->depth<operator->takes) return too_few;
    if (stack->depth-operator->takes+operator->leaves>ROOM) return no_room;
    return operator->apply(stack);
  }
  @<Push the number that |word| stands for@>@;
}

@ A number goes up to the end of its word.

@<Push the number...@>=
{
  char *end; /* where the number ends */
  double number=strtod(word,&end);
  if (end==word || *end!='\0') return unknown;
  if (stack->depth==ROOM) return no_room;
  PUSH(number);
  return fine;
}

@ Complaints go to standard error. The declaration says that |complain| takes a
format, so that a compiler can look whether its arguments are those that the
format wants.
@.rpn: ...@>

@<Declarations@>=
FORMAT static void complain(const char *format,...);

@ Each complaint is a line.

@<Functions@>=
static void complain(const char *format,...)
{
  va_list arguments;
  fputs("rpn: ",stderr);
  va_start(arguments,format);
  vfprintf(stderr,format,arguments);
  va_end(arguments);
  putc('\n',stderr);
}

@ The words end with |NULL|, as those of a command line do.

@<Functions@>=
static enum result compute(char **words)
{
  struct stack stack={.depth=0};
  for (; *words!=NULL; words++) {
    enum result result=take(&stack,*words);
    if (result!=fine) {
      complain("%s: %s",*words,messages[result]);
      return result;
    }
  }
  for (size_t i=0; i<stack.depth; i++)
    printf(i==0 ? "%g" : " %g",stack.value[i]);
  if (stack.depth>0) putchar('\n');
  return fine;
}

@ A line is cut into words at its blanks; it can't have more words than half of
its bytes. One of more than |LENGTH| bytes goes on as a line of its own.

@<Macros@>=
#define LENGTH 2000

@ A line that went wrong doesn't keep the next one from being computed.

@<Functions@>=
static int each_line(FILE *file)
{
  int status=EXIT_SUCCESS;
  char line[LENGTH];
  while (fgets(line,sizeof line,file)!=NULL) {
    char *words[LENGTH/2+1];
    size_t count=0;
    for (char *word=strtok(line," \t\n"); word!=NULL; word=strtok(NULL," \t\n"))
      words[count++]=word;
    words[count]=NULL;
    if (compute(words)!=fine) status=EXIT_FAILURE;
  }
  return status;
}

@* Index. Types that have a name of their own are in bold here, tags are not.
