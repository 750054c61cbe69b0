#define T "012345678901234567890123456789012345678901234567890123456789012345678901234567890123456789123456789";
#define U T T T T T T T T T T
#define V U U U U U U U U U U
#define W V V V V V V V V V V
#define X W W W W W W W W W W

void main() {
    // Four times 10,000 texts of 100 words, and an empty one.
    X X X X
    ""; // error 50
}
