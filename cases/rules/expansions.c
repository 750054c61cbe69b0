// What macros stand for; a length is 1 where the test in it holds, and 0, which is refused, where it does not.
#define same 10
#define same 0xA
#define sum 2+1
#define joined \
 1
#define commented /*
 */ 1
#define gone 1
#undef gone
#undef gone
#define again 1
#undef again
#define again 2
#define float 3
#define when if

int[same == 10] a_number_is_the_same_in_other_digits;
int[sum*2 == 4] tokens_are_not_grouped;
int[joined == 1 && commented == 1] behind_a_joined_line_and_a_comment;
int gone;
int[again == 2] defined_anew;
int[float == 3] a_word_of_the_grammar;

int later;
#define later later + 1

#ifdef nested
#ifdef same
#error not taken
#else
#error not taken, either
#endif
#endif

#ifdef same
int first;
#else
int first, first;
#endif
#ifndef same
int second, second;
#else
int second;
#endif

void main() {
    int a = later;
    when (a) gone = first + second;
}
