#define A
#define B A A A A A A A A A A
#define C B B B B B B B B B B
#define D C C C C C C C C C C
#define E D D D D D D D D D D
#define F E E E E E E E E E E

void main() {
    // 999,999 names, and one
    F F F F F F F F F A
}
