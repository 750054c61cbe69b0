void main() {
    y = 1;
}

int 1; // error 30
