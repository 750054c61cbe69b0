void main() {
    switch (1) {
        case (int) 3: ; // error 48
    }
}
