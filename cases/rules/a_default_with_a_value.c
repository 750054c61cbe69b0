void main() {
    switch (1) {
        default 1: ; // error 30
    }
}
