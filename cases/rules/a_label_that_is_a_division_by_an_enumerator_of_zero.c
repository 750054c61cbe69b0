enum E { ZERO };

void main() {
    switch (1) {
        case 1 / ZERO: ; // error 48
    }
}
