#define A ; ; ; ; ; ; ; ; ; ;
#define B A A A A A A A A A A
#define C B B B B B B B B B B
#define D C C C C C C C C C C
#define E D D D D D D D D D D

// 200,000 tokens: six of the function, and 199,994 marks
void main() {
    E D D D D D D D D D
    C C C C C C C C C B B B B B B B B B
    A A A A A A A A A ; ; ; ;
}
