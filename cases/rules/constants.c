// A length is 1 where the test in it holds, and 0, which is refused, where it does not.
enum E { zero, one, ten = 10, eleven, minus = -1, again, last = 0xFFFFFFFF, wrapped, letter = 'A', size = sizeof(int[3][4]), sum = ten + eleven };
struct Q { int a; int[3] b; };
union U { int i; Q q; };

int[zero == 0 && one == 1 && ten == 10 && eleven == 11] counted;
int[minus == 0xFFFFFFFF && again == 0 && wrapped == 0] wraps;
int[letter == 65 && size == 12 && sum == 21 && true == 1 && false == 0] valued;
int[sizeof(int) == 1 && sizeof(bool) == 1 && sizeof(E) == 1 && sizeof(Q*) == 1 && sizeof(void*) == 1] of_a_word;
int[sizeof(Q) == 4 && sizeof(U) == 4 && sizeof(int[3][4]) == 12 && sizeof(Q[2]) == 8 && sizeof(Q[5]*) == 1] of_several;
int[-7 / 2 == -3 && 7 / -2 == -3 && -7 % 2 == -1 && 7 % -2 == 1] divided;
int[7 / 2 == 3 && -7 / -2 == 3 && 7 % 2 == 1 && -7 % -2 == -1 && 0 / 5 == 0 && 0 % 5 == 0] divided_too;
int[0x80000000 / -1 == 0x80000000 && 0x80000000 % -1 == 0] extreme;
int[1 << 32 == 0 && -1 >> 28 == 15 && 8 << -1 == 4 && 1 << 31 == 0x80000000] shifted;
int[5 << 0 == 5 && 5 >> 0 == 5 && -1 >> 31 == 1 && -1 >> 32 == 0 && 8 >> -1 == 16 && 1 << -1 == 0 && 1 << 0x80000000 == 0] shifted_too;
int[0xFFFFFFFF + 1 == 0 && 0 - 1 == 0xFFFFFFFF && 65536 * 65536 == 0] wrapped_around;
int[-1 < 0 && 0x80000000 < 0x7FFFFFFF && 1 <= 1 && 2 > 1 && 1 >= 1 && !(1 != 1)] signed_order;
int[(6 & 3) == 2 && (6 | 3) == 7 && (6 ^ 3) == 5 && ~0 == -1 && !5 == 0 && !0 && +3 == 3 && -3 == 0 - 3] bitwise;
int[(5 && 2) == 1 && (0 || 2) == 1 && (2 || 0) == 1 && (0 || 0) == 0 && (1 && 0) == 0 && (0 && 1) == 0 && (1 != 2) == 1] truths;
int[1 + 2 * 3 == 7 && (1 + 2) * 3 == 9 && 10 - 3 - 2 == 5 && 2 + 3 << 1 == 10] grouped;
int[ten] a;
int[2][one + 1][3] b;

void main() {
    switch (a[0]) {
        case zero: case one + 1: case -1: case 'A': case sizeof(Q): case 1 << 4: case !0: case true + 9: default: case 0x80000000:
    }
    int[sizeof(int[ten])] c;
}
