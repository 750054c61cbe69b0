// The function, the statement, 198 brackets and the number.
#define P ( ( ( ( ( ( ( ( ( (
#define Q ) ) ) ) ) ) ) ) ) )
#define O P P P P P P P P P P
#define C Q Q Q Q Q Q Q Q Q Q

void main() {
    O P P P P P P P P P ( ( ( ( ( ( ( ( 1 ) ) ) ) ) ) ) ) Q Q Q Q Q Q Q Q Q C; // error 31
}
