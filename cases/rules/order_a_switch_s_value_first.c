void main() {
    switch (y) { // error 40
        case NULL:
    }
}
