#define A ; ; ; ; ; ; ; ; ; ;
#define B A A A A A A A A A A
#define C B B B B B B B B B B
#define D C C C C C C C C C C
#define E D D D D D D D D D D

// 200,001 tokens, whose last is the bracket at the end
void main() {
    E D D D D D D D D D
    C C C C C C C C C B B B B B B B B B
    A A A A A A A A A ; ; ; ; ;
} // error 25
