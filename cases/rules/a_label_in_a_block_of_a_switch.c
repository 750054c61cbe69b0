void main() {
    switch (1) {
        { case 1: ; } // error 30
    }
}
