#define B { { { { { { { { { {
#define D } } } } } } } } } }

void main() {
    B B B B B B B B B B B B B B B B B B B B D D D D D D D D D D D D D D D D D D D D // error 31
}
