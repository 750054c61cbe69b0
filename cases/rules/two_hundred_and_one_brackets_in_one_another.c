#define P ( ( ( ( ( ( ( ( ( (
#define Q ) ) ) ) ) ) ) ) ) )
#define O P P P P P P P P P P
#define C Q Q Q Q Q Q Q Q Q Q

void main() {
    O O ( 1 ) C C; // error 31
}
