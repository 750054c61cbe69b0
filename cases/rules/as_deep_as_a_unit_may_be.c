#define P ( ( ( ( ( ( ( ( ( (
#define Q ) ) ) ) ) ) ) ) ) )
#define O P P P P P P P P P P
#define C Q Q Q Q Q Q Q Q Q Q
#define B { { { { { { { { { {
#define D } } } } } } } } } }
#define S * * * * * * * * * *
#define T S S S S S S S S S S
#define A 1 + 1 + 1 + 1 + 1 + 1 + 1 + 1 + 1 + 1 +
#define U A A A A A A A A A A

// The item, the variable, 197 stars and int.
int T S S S S S S S S S * * * * * * * pointer;

void main() {
    // The function, the statement, 197 brackets and the number.
    O P P P P P P P P P ( ( ( ( ( ( ( 1 ) ) ) ) ) ) ) Q Q Q Q Q Q Q Q Q C;
    // The function, 198 blocks and the statement.
    B B B B B B B B B B B B B B B B B B B { { { { { { { {
    ;
    } } } } } } } } D D D D D D D D D D D D D D D D D D D
    // The function, the statement, 197 sums that lie in one another, and the number.
    U A A A A A A A A A 1 + 1 + 1 + 1 + 1 + 1 + 1 + 1;
}
