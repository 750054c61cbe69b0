int f() {
    return 3;
}

void main() {
    switch (1) {
        case f(): ; // error 48
    }
}
