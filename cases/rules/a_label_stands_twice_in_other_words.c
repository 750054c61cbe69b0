enum E { A = 3 };

void main() {
    switch (1) {
        case 4: ;
        case A + 1: ; // error 41
    }
}
